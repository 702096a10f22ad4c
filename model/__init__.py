"""The mailboxes of the program once more, as a model in Python that can be explored."""
