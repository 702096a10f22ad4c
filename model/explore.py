"""Explores a model of the mailboxes: all states of small ones, beside lists of what was sent.

    python3 -m model.explore SENDERS NODES POSTS [MOST] [--mailboxes COUNT] [--ends COUNT]
        [--wrong NAME]
    python3 -m model.explore --vectors COUNT SEED [--mailboxes MOST] [--long]

The model has the linked mailboxes (words, program points and steps) and the abstract ones (lists,
and links in flight). It says once more, in another language, what the definitions of
crates/queue_core/specs say, under the same names: Mailbox.antt, Events.antt and Pool.antt;
Pooled.antt and PoolSteps.antt; the relation between the two in Chain.antt, Links.antt, Box.antt and
PoolShows.antt; and in PoolLaws.antt which event each step is. There are several mailboxes over one
table of nodes, where a sender has one ring for all of them. A mailbox alone is a pool of one. A
failed check names the clause. Nothing here is proved, and the proofs do not rest on it.

The first form visits every state that any interleaving reaches, with at most POSTS posts a sender,
in whichever mailboxes, and an end mark in each or, with --ends, in at most COUNT. It checks in each
state the whole relation between the two, the order of what is received, that no node is in two
mailboxes, and the held nodes; and of each step that its event is the one that event_in names, and
may happen. It stops at MOST states.

The second form prints random schedules with what each step answers, of one mailbox or of two to
MOST, for a test of the product's own core. Long ones have three senders that go round their rings
several times.

The exploration finds each of these wrong cores out, no_turn only where a sender posts twice;
--wrong all tries each of them, for which 1 1 2 is enough:

    no_successor   the tail is returned without a successor
    link_first     the link is stored before the exchange
    stub_left      the stub is exchanged in while it is still left, since it is the tail
    stub_twice     the stub is exchanged in after a node that is not the last, while it is left
    no_turn        a node is filled without a look at its turn
    given_in_take  a node is given back inside the take that returns it

Wrong pools, with --mailboxes 2:

    own_turn       the turn of a node is compared with the posts of one mailbox, and not of all
    second_call    a sender in a call in one mailbox begins one in another
    other_reader   a reader gives back what the reader of another mailbox holds
    ended_in_all   an end mark in one mailbox ends the sender in all of them
"""
import argparse
import random
import sys
from collections import deque, namedtuple

# The points of a program between two atomic steps.
REST, LINE, AMOUNT, NULL, SWAP, LINK = "Rest Line Amount Null Swap Link".split()
SECOND, STUBHEAD, NODEHEAD, LAST = "Second StubHead NodeHead Last".split()

END, STUB = ("End",), "Stub"
WRONGS = "no_successor link_first stub_left stub_twice no_turn given_in_take".split()
WRONG_POOLS = "own_turn second_call other_reader ended_in_all".split()

# What the command line asks for: a wrong core or pool, long schedules, and the most end marks.
WRONG = None
LONG = False
ENDS = 64

# ---- the abstract mailbox: Mailbox.antt, Events.antt, Received.antt

# items has a place for each sender; an entry is (sender, place) or STUB. given is kept sorted,
# since nothing looks at its order.
Mailbox = namedtuple("Mailbox", "items order in_flight passed given")


def opening(W):
    return Mailbox(((),) * W, (STUB,), (), 0, ())


def put(t, i, v):
    return t[:i] + (v,) + t[i + 1:]


def items_of(m, p):
    return m.items[p] if p < len(m.items) else ()


def item_at(m, p, k):
    items = items_of(m, p)
    return items[k] if k < len(items) else END


def last_of(m, p):
    return max(len(items_of(m, p)) - 1, 0)


def sent(m, p):
    return [item for k, item in enumerate(items_of(m, p))
            if (p, k) in m.order and (p, k) not in m.in_flight]


def passed_entries(m):
    return m.order[:m.passed]


def left_entries(m):
    return m.order[m.passed:]


def entry_at(entries, i):
    return entries[i] if i < len(entries) else STUB


def got_of(m, p):
    return [item_at(m, *e) for e in passed_entries(m) if e != STUB and e[0] == p]


def held_entries(m):
    return [e for e in passed_entries(m) if e != STUB and e not in m.given]


def slot_of(ring, item, place):
    return ring if item == END else place % ring


def slot_at(ring, m, p, k):
    return slot_of(ring, item_at(m, p, k), k)


def may_fill(ring, m, p, item):
    """yields what stands against filling an item"""
    items = items_of(m, p)
    if sent(m, p) != list(items):
        yield "MayFill.all_sent"
    if END in items:
        yield "MayFill.not_ended"
    slots = [slot_at(ring, m, p, k) for k in range(len(items))]
    for k, slot in enumerate(slots):
        is_next = slot == slot_of(ring, item, len(items)) and slot not in slots[k + 1:]
        if is_next and (p, k) not in m.given:
            yield "MayFill.slot_free"


def may(ring, m, event):
    """yields what stands against the event"""
    what, *of = event
    if what == "Fill":
        yield from may_fill(ring, m, *of)
    elif what == "Exchange":
        if not items_of(m, *of):
            yield "MayExchange.some"
        if (of[0], last_of(m, *of)) in m.order:
            yield "MayExchange.new"
    elif what == "Link":
        if not any(e != STUB and e[0] == of[0] for e in m.in_flight):
            yield "MayLink"
    elif what == "Pass":
        left = left_entries(m)
        if len(left) < 2:
            yield "MayPass.successor"
        if entry_at(left, 0) in m.in_flight:
            yield "MayPass.first_linked"
        if entry_at(left, 1) in m.in_flight:
            yield "MayPass.next_linked"
    elif what == "GiveBack":
        if tuple(of) not in passed_entries(m):
            yield "IsHeld.passed"
        if tuple(of) in m.given:
            yield "IsHeld.kept"
    elif what == "StubIn":
        if STUB in left_entries(m):
            yield "StubIn while the stub is left"
    elif what == "StubLink":
        if STUB not in m.in_flight:
            yield "StubLink while the stub is not in flight"


def exchanged(entry, m):
    return m._replace(order=m.order + (entry,), in_flight=m.in_flight + (entry,))


def after(event, m):
    what, *of = event
    if what == "Fill":
        p, item = of
        return m._replace(items=put(m.items, p, m.items[p] + (item,)))
    if what == "Exchange":
        return exchanged((of[0], last_of(m, *of)), m)
    if what == "Link":
        return m._replace(in_flight=tuple(e for e in m.in_flight if e == STUB or e[0] != of[0]))
    if what == "Pass":
        return m._replace(passed=m.passed + 1)
    if what == "GiveBack":
        return m._replace(given=tuple(sorted(m.given + (tuple(of),))))
    if what == "StubIn":
        return exchanged(STUB, m)
    if what == "StubLink":
        return m._replace(in_flight=tuple(e for e in m.in_flight if e != STUB))
    raise ValueError(what)


def received_in_order(ring, m):
    for p in range(len(m.items)):
        all_sent, got = sent(m, p), got_of(m, p)
        if all_sent[:len(got)] != got:
            yield "in_order: what is received of a sender is not the first part of what it sent"
        if END in all_sent[:-1]:
            yield "end_is_last"
        if END in got and got != all_sent:
            yield "all_with_end"
    for p, k in held_entries(m):
        later = range(k + 1, len(items_of(m, p)))
        if any(slot_at(ring, m, p, j) == slot_at(ring, m, p, k) for j in later):
            yield "held_alone"

# ---- the pool: an abstract mailbox each, and the posts of each sender over all of them in the
# order of filling, as mailbox and place there

Pool = namedtuple("Pool", "boxes posts")


def opening_pool(W, B):
    return Pool((opening(W),) * B, ((),) * W)


def is_given(q, p, at):
    return (p, at[1]) in q.boxes[at[0]].given


def may_in(ring, q, b, event):
    """yields what stands against the event in a mailbox of a pool, or in a mailbox alone"""
    if event[0] == "Fill":
        p, item = event[1:]
        if any(sent(m, p) != list(items_of(m, p)) for m in q.boxes):
            yield "MayFillIn.all_sent"
        before = len(q.posts[p]) - ring
        if item != END and before >= 0 and not is_given(q, p, q.posts[p][before]):
            yield "MayFillIn.free"
    yield from may(ring, q.boxes[b], event)


def after_in(b, event, q):
    posts = q.posts
    if event[0] == "Fill" and event[2] != END:
        p = event[1]
        posts = put(posts, p, posts[p] + ((b, len(items_of(q.boxes[b], p))),))
    return Pool(put(q.boxes, b, after(event, q.boxes[b])), posts)

# ---- the core of a pool: Pooled.antt, PoolSteps.antt. What the last calls answered is left out,
# since no step looks at it.

# point and mailbox are of the sender's call; at rest its mailbox is 0. holders has the mailbox
# whose reader holds a node, or None.
Node = namedtuple("Node", "next turn line amount")
Sender = namedtuple("Sender", "point mailbox count ended")
Reader = namedtuple("Reader", "point tail")
Pooled = namedtuple("Pooled", "ring heads nodes holders senders readers")

# A step that is due, the core that it leaves, the event that it is, and what it answers.
Due = namedtuple("Due", "step core event answer", defaults=(None, None))


def opening_pooled(W, B, N):
    stubs = range(W * (N + B), W * (N + B) + B)
    return Pooled(
        N, tuple(stub + 1 for stub in stubs),
        (Node(0, 0, 0, 0),) * stubs.stop, (None,) * stubs.stop,
        (Sender((REST,), 0, 0, (False,) * B),) * W, tuple(Reader((REST,), stub) for stub in stubs))


def line_word(item):
    return 0 if item == END else item[1] + 1


def amount_word(item):
    """twice the size of the amount, and 1 more where it is negative"""
    return 0 if item == END else 2 * abs(item[2]) + (item[2] < 0)


def first_node(l, p):
    return p * (l.ring + len(l.heads))


def stub_in(l, b):
    return first_node(l, len(l.senders)) + b


def node_at(l, n):
    return l.nodes[n] if n < len(l.nodes) else Node(0, 0, 0, 0)


def point_in(l, b, p):
    """where a sender is, as a mailbox sees it: at rest, but in the one of its call"""
    return l.senders[p].point if p < len(l.senders) and l.senders[p].mailbox == b else (REST,)


def node_of(l, b, p, item):
    return first_node(l, p) + (l.ring + b if item == END else l.senders[p].count % l.ring)


def is_free(l, p, item):
    return l.nodes[node_of(l, 0, p, item)].turn == l.senders[p].count // l.ring


def has_next(l, b):
    return l.nodes[l.readers[b].tail].next != 0


def is_last(l, b):
    return l.heads[b] == l.readers[b].tail + 1


def with_node(l, n, **words):
    return l._replace(nodes=put(l.nodes, n, l.nodes[n]._replace(**words)))


def with_sender(l, p, **what):
    return l._replace(senders=put(l.senders, p, l.senders[p]._replace(**what)))


def with_head(l, b, head):
    return l._replace(heads=put(l.heads, b, head))


def with_reader(l, b, *point, **what):
    return l._replace(readers=put(l.readers, b, l.readers[b]._replace(point=point, **what)))


def with_holder(l, n, holder):
    return l._replace(holders=put(l.holders, n, holder))


def takes(l, b):
    tail = l.readers[b].tail
    n = with_holder(with_reader(l, b, REST, tail=l.nodes[tail].next - 1), tail, b)
    return with_node(n, tail, turn=l.nodes[tail].turn + 1) if WRONG == "given_in_take" else n


def post(p, k):
    """every second post takes an amount back, the first one of every second sender"""
    place = p * (100 if LONG else 10) + k
    return ("Post", place + 1, (100 + place) * (-1) ** (p + k))


def finds_free(l, q, b, p, item):
    """what a sender finds that looks at its next ring node"""
    if WRONG == "own_turn":
        own = sum(1 for at in q.posts[p] if at[0] == b)
        return l.nodes[node_of(l, b, p, item)].turn == own // l.ring
    return is_free(l, p, item) or WRONG == "no_turn"


def begins(l, b, p):
    """whether a call of a sender may begin in a mailbox"""
    sender = l.senders[p]
    at_rest = sender.point[0] == REST or WRONG == "second_call" and sender.mailbox != b
    return at_rest and not sender.ended[b]


def sender_steps(l, q, b, p, posts):
    """yields the steps of a sender that are due in a mailbox"""
    sender = l.senders[p]
    if begins(l, b, p) and sender.count < posts:
        item = post(p, sender.count)
        step = ("LoadTurn", p, *item[1:])
        if finds_free(l, q, b, p, item):
            yield Due(step, with_sender(l, p, point=(LINE, item), mailbox=b), ("Fill", p, item))
        else:
            yield Due(step, l, answer="Full")
    if begins(l, b, p) and sum(sender.ended) < ENDS:
        n = with_node(l, node_of(l, b, p, END), line=line_word(END))
        n = with_sender(n, p, point=(AMOUNT, END), mailbox=b)
        yield Due(("EndLine", p), n, ("Fill", p, END))
    kind, *due = point_in(l, b, p)
    if due:
        yield from call_steps(l, b, p, kind, *due)


def call_steps(l, b, p, kind, item, *link):
    """yields the step of a sender that is in a call in a mailbox"""
    sender, node, last = l.senders[p], node_of(l, b, p, item), l.heads[b] - 1
    if kind == LINE:
        n = with_node(l, node, line=line_word(item))
        yield Due(("StoreLine", p), with_sender(n, p, point=(AMOUNT, item)))
    elif kind == AMOUNT:
        n = with_node(l, node, amount=amount_word(item))
        yield Due(("StoreAmount", p), with_sender(n, p, point=(NULL, item)))
    elif kind == NULL:
        n = with_node(l, node, next=0)
        yield Due(("StoreNull", p), with_sender(n, p, point=(SWAP, item)))
    elif kind == SWAP and WRONG == "link_first" and not link:
        n = with_node(l, last, next=node + 1)
        yield Due(("LinkFirst", p), with_sender(n, p, point=(SWAP, item, last)))
    elif kind == SWAP:
        n = with_head(with_sender(l, p, point=(LINK, item, last)), b, node + 1)
        yield Due(("SwapHead", p), n, ("Exchange", p))
    elif kind == LINK:
        ended = sender.ended
        if item == END and WRONG == "ended_in_all":
            ended = (True,) * len(l.heads)
        elif item == END:
            ended = put(ended, b, True)
        n = with_node(l, link[0], next=node + 1)
        n = with_sender(n, p, point=(REST,), mailbox=0, count=sender.count + (item != END),
                        ended=ended)
        yield Due(("StoreLink", p), n, ("Link", p), "Sent")


def reader_steps(l, q, b):
    """yields the steps of a mailbox's reader that are due"""
    (kind, *due), tail, stub = l.readers[b].point, l.readers[b].tail, stub_in(l, b)
    load_next = ("LoadNext",)
    if kind == REST and tail == stub:
        if has_next(l, b):
            n = with_reader(l, b, SECOND, tail=l.nodes[tail].next - 1)
            yield Due(load_next, n, ("Pass",))
        else:
            yield Due(load_next, with_reader(l, b, STUBHEAD))
    elif kind in (REST, SECOND) and tail != stub:
        if has_next(l, b):
            yield Due(load_next, takes(l, b), ("Pass",), f"Held({tail})")
        elif WRONG == "no_successor":
            n = with_holder(with_reader(l, b, REST), tail, b)
            yield Due(load_next, n, ("Pass",), f"Held({tail})")
        else:
            yield Due(load_next, with_reader(l, b, NODEHEAD))
    elif kind == LAST:
        if has_next(l, b):
            yield Due(load_next, takes(l, b), ("Pass",), f"Held({tail})")
        else:
            yield Due(load_next, with_reader(l, b, REST), answer="Busy")
    elif kind in (STUBHEAD, NODEHEAD):
        yield load_head(l, b, kind)
    elif kind == NULL:
        yield Due(("StubNull",), with_reader(with_node(l, stub, next=0), b, SWAP))
    elif kind == SWAP:
        n = with_head(with_reader(l, b, LINK, l.heads[b] - 1), b, stub + 1)
        yield Due(("StubSwap",), n, ("StubIn",))
    elif kind == LINK:
        n = with_reader(with_node(l, due[0], next=stub + 1), b, LAST)
        yield Due(("StubLink",), n, ("StubLink",))
    if kind == REST:
        yield from held_steps(l, q, b)


def load_head(l, b, kind):
    """the step of a reader that loads the head, at the stub or at a node"""
    step, last = ("LoadHead",), is_last(l, b)
    if kind == STUBHEAD:
        goes_on = WRONG == "stub_left" and not last
    else:
        goes_on = WRONG == "stub_twice" or last
    if goes_on:
        return Due(step, with_reader(l, b, NULL))
    answer = "Empty" if kind == STUBHEAD and last else "Busy"
    return Due(step, with_reader(l, b, REST), answer=answer)


def held_steps(l, q, b):
    """yields the steps of a mailbox's reader with the nodes that it holds"""
    for n, holder in enumerate(l.holders):
        if holder == b or holder is not None and WRONG == "other_reader":
            # It gives back the last entry that stands in the node: event_in names the first, and
            # the two have to be one.
            entries = [e for e in held_entries(q.boxes[b]) if node_in(l, q, b, e) == n]
            event = ("GiveBack", *entries[-1]) if entries else None
            yield Due(("LoadLine", n), l)
            yield Due(("LoadAmount", n), l)
            left = with_holder(with_node(l, n, turn=l.nodes[n].turn + 1), n, None)
            yield Due(("GiveBack", n), left, event)


def steps_in(l, q, b, posts):
    """yields each step that is due in a mailbox"""
    for p in range(len(l.senders)):
        yield from sender_steps(l, q, b, p, posts)
    yield from reader_steps(l, q, b)

# ---- which event each step is: PoolLaws.antt


def held_in(l, q, b, n):
    m = q.boxes[b]
    return [e for e in passed_entries(m) if node_in(l, q, b, e) == n and e not in m.given]


def event_in(l, q, b, step):
    what, *of = step
    if what == "LoadTurn":
        p, *words = of
        item = ("Post", *words)
        return ("Fill", p, item) if is_free(l, p, item) else None
    if what == "EndLine":
        return ("Fill", *of, END)
    if what == "SwapHead":
        return ("Exchange", *of)
    if what == "StoreLink":
        return ("Link", *of)
    if what == "LoadNext":
        return ("Pass",) if has_next(l, b) else None
    if what == "StubSwap":
        return ("StubIn",)
    if what == "StubLink":
        return ("StubLink",)
    if what == "GiveBack":
        held = held_in(l, q, b, *of)
        return ("GiveBack", *held[0]) if held and held[0] != STUB else None
    return None

# ---- the relation: Chain.antt, Links.antt, Box.antt, PoolShows.antt. Each part yields the clauses
# that do not hold.

Links = namedtuple("Links", "node next head tail points point")


def chain(node, next_of, flies, head, tail, left):
    if not left:
        yield "chain.some: nothing is left"
        return
    nodes = [node(e) for e in left]
    if len(set(nodes)) < len(nodes):
        yield "chain.apart: two entries that are left stand in one node"
    if flies(left[0]):
        yield "chain.first_linked: the first entry left is in flight"
    if tail != nodes[0]:
        yield "chain.tail_is"
    if head != nodes[-1] + 1:
        yield "chain.head_is"
    for i in range(len(left) - 1):
        if next_of(nodes[i]) != (0 if flies(left[i + 1]) else nodes[i + 1] + 1):
            yield "chain.links"
    if next_of(nodes[-1]) != 0:
        yield "chain.end"


def comes_after(k, m, entry, before):
    left = left_entries(m)
    return any(left[i + 1] == entry and k.node(left[i]) == before for i in range(len(left) - 1))


def is_owed_by_sender(k, m, p, point):
    places = [e[1] for e in m.in_flight if e != STUB and e[0] == p]
    if point[0] != LINK:
        if places:
            yield "senders.in_flight: an item of a sender that is not at a link"
        return
    last = last_of(m, p)
    if not items_of(m, p) or item_at(m, p, last) != point[1]:
        yield "senders.in_flight: the item at a link is not the last one filled"
    if last not in places:
        yield "senders.in_flight: the last item of a sender at a link is not in flight"
    if not comes_after(k, m, (p, last), point[2]):
        yield "senders.in_flight: the node before"
    if any(j < last for j in places):
        yield "senders.in_flight: an item that is not the last"


def is_at_hand(k, m, p, point):
    count, last = len(items_of(m, p)), last_of(m, p)
    if point[0] in (REST, LINK):
        if any((p, j) not in m.order for j in range(count)):
            yield "senders.at_hand: an item is not exchanged in, and none is at hand"
        return
    if not count or item_at(m, p, last) != point[1]:
        yield "senders.at_hand: the item at hand is not the last one filled"
    if (p, last) in m.order:
        yield "senders.at_hand: the item at hand is exchanged in"
    if any((p, j) not in m.order for j in range(last)):
        yield "senders.at_hand: one before the item at hand is not exchanged in"
    if point[0] == SWAP and k.next(k.node((p, last))) != 0:
        yield "senders.at_hand: next before the exchange"


def is_owed_by_reader(k, m, point):
    if point[0] != LINK:
        if STUB in m.in_flight:
            yield "reader.in_flight: the stub, and the reader is not at a link"
        return
    if STUB not in m.in_flight:
        yield "reader.in_flight: the stub is not in flight at a link"
    if not comes_after(k, m, STUB, point[1]):
        yield "reader.in_flight: the node before"


def is_tail_at(k, m, point):
    at_stub = k.tail == k.node(STUB)
    if point[0] == STUBHEAD and not at_stub:
        yield "reader.at_tail: the tail is not the stub"
    if point[0] not in (REST, STUBHEAD) and at_stub:
        yield "reader.at_tail: the tail is the stub"
    if point[0] in (NULL, SWAP) and STUB in left_entries(m):
        yield "reader.at_tail: the stub is left"
    if point[0] == SWAP and k.next(k.node(STUB)) != 0:
        yield "reader.at_tail: next of the stub"


def show_links(k, m):
    yield from chain(k.node, k.next, m.in_flight.__contains__, k.head, k.tail, left_entries(m))
    for p in {*range(len(m.items)), *(e[0] for e in m.in_flight if e != STUB)}:
        yield from is_owed_by_sender(k, m, p, k.points(p))
        yield from is_at_hand(k, m, p, k.points(p))
    yield from is_owed_by_reader(k, m, k.point)
    yield from is_tail_at(k, m, k.point)


def place_of(ring, posts, b, item, k):
    """the place of an item among its sender's nodes

    A post goes round the ring by its number, and an end mark has the node of its mailbox.
    """
    return ring + b if item == END else posts.index((b, k)) % ring


def node_in(l, q, b, e):
    if e == STUB:
        return stub_in(l, b)
    p, k = e
    return first_node(l, p) + place_of(l.ring, q.posts[p], b, item_at(q.boxes[b], p, k), k)


def links_in(l, q, b):
    return Links(
        node=lambda e: node_in(l, q, b, e), next=lambda n: node_at(l, n).next,
        head=l.heads[b], tail=l.readers[b].tail,
        points=lambda p: point_in(l, b, p), point=l.readers[b].point)


def shows_linked(l, q, b):
    m = q.boxes[b]
    yield from show_links(links_in(l, q, b), m)
    for p, sender in enumerate(l.senders):
        if sender.ended[b] != (END in sent(m, p)):
            yield "counted.ended"
    if any(m.items[len(l.senders):]):
        yield "no_others: somebody who is no sender has filled"
    held = {n for n, holder in enumerate(l.holders) if holder == b}
    if {node_in(l, q, b, e) for e in held_entries(m)} != held:
        yield "held: the nodes that are held are not those of the entries that are"


def holds_item(l, n, item):
    node = node_at(l, n)
    return (node.line, node.amount) == (line_word(item), amount_word(item))


def shows_items(l, q, b):
    m = q.boxes[b]
    for p in range(len(l.senders)):
        kind, *due = point_in(l, b, p)
        if kind not in (AMOUNT, NULL, SWAP):
            continue
        n = node_in(l, q, b, (p, last_of(m, p)))
        if kind == AMOUNT and node_at(l, n).line != line_word(due[0]):
            yield "items.stored: line"
        if kind in (NULL, SWAP) and not holds_item(l, n, due[0]):
            yield "items.stored: line and amount"
    for e in m.order:
        if e == STUB or e in m.given:
            continue
        if not holds_item(l, node_in(l, q, b, e), item_at(m, *e)):
            yield "items.kept: the words of an entry that is not given back"


def shows_counts(l, q):
    for p, sender in enumerate(l.senders):
        if sender.count != sum(1 for m in q.boxes for item in sent(m, p) if item != END):
            yield "counted.count"


def shows_turns(l, q):
    given = [node_in(l, q, b, e) for b, m in enumerate(q.boxes) for e in m.given]
    for n, node in enumerate(l.nodes):
        if node.turn != given.count(n):
            yield "turns: a turn is not how often the node was given back"


def shows(l, q):
    for b in range(len(q.boxes)):
        yield from shows_linked(l, q, b)
        yield from shows_items(l, q, b)
    yield from shows_counts(l, q)
    yield from shows_turns(l, q)


def standing(m):
    """the entries that stand in their nodes: from when they are filled until they are given back

    The stub always does.
    """
    return [STUB] + [(p, k) for p, items in enumerate(m.items) for k in range(len(items))
                     if (p, k) not in m.given]


def are_apart(l, q):
    nodes = [node_in(l, q, b, e) for b, m in enumerate(q.boxes) for e in standing(m)]
    if len(set(nodes)) < len(nodes):
        yield "a node has two entries at a time"


def tells(l, q):
    """what the laws say of the loads of a core that shows the mailboxes

    PoolLoadTurnTells, PoolHeadTells, PoolHeldTells, PoolGiveBackTells.
    """
    for p, sender in enumerate(l.senders):
        if sender.point == (REST,) and not all(sender.ended):
            node = node_of(l, 0, p, post(p, sender.count))
            stood = [at for at in q.posts[p] if node_in(l, q, at[0], (p, at[1])) == node]
            if is_free(l, p, post(p, sender.count)) != all(is_given(q, p, at) for at in stood):
                yield ("PoolLoadTurnTells: a node is found free that was not given back, "
                       "or the other way round")
    for b, m in enumerate(q.boxes):
        left = left_entries(m)
        if l.readers[b].tail == stub_in(l, b) and is_last(l, b) and left != (STUB,):
            yield "PoolHeadTells: something else than the stub is left"
        for e in held_entries(m):
            n = node_in(l, q, b, e)
            if not holds_item(l, n, item_at(m, *e)):
                yield "PoolHeldTells: the words of a node that is held"
            if any(node_in(l, q, d, other) == n
                   for d, at in enumerate(q.boxes) for other in left_entries(at)):
                yield "PoolGiveBackTells: an entry that is left stands in a node that is held"

# ---- exploration


class Refused(Exception):
    """A clause does not hold, or a step is not the event that it should be."""


def check(clauses, step):
    """refuses the first of the clauses that do not hold"""
    for clause in clauses:
        raise Refused(f"at {shown(step)}: {clause}")


def shown(step):
    return step[0] + (f"({','.join(str(n) for n in step[1:])})" if step[1:] else "")


def led_to(l, q, b, step, event):
    """the mailboxes after the step: its event may happen, and is the one that event_in names"""
    if event:
        check(may_in(l.ring, q, b, event), step)
    if event != event_in(l, q, b, step):
        named = event_in(l, q, b, step)
        raise Refused(f"at {shown(step)}: the event is {event}, and event_in names {named}")
    return after_in(b, event, q) if event else q


def check_state(N, l, q, b, step):
    """refuses a state that does not hold what it should, after a step in a mailbox"""
    check(shows(l, q), step)
    check(received_in_order(N, q.boxes[b]), step)
    check(are_apart(l, q), step)
    check(tells(l, q), step)


def explore(W, B, N, K, most=3_000_000):
    """visits every state, and answers in words how many there are"""
    start = opening_pooled(W, B, N), opening_pool(W, B)
    check(shows(*start), ("opening",))
    seen = {start}
    todo = deque([start])
    made = 0
    answers = {}
    while todo:
        l, q = todo.popleft()
        for b, (step, core, event, answer) in ((b, x) for b in range(B)
                                               for x in steps_in(l, q, b, K)):
            made += 1
            if answer:
                key = answer.split("(")[0]
                answers[key] = answers.get(key, 0) + 1
                box = q.boxes[b]
                if answer == "Empty" and any(got_of(box, p) != sent(box, p) for p in range(W)):
                    raise Refused(f"at {shown(step)}: "
                                  "Empty though a sender is not wholly received")
            state = (core, led_to(l, q, b, step, event))
            if state not in seen:
                check_state(N, *state, b, step)
                seen.add(state)
                todo.append(state)
                if len(seen) > most:
                    return (f"stopped at {most} states, {made} steps, answers {answers}: "
                            "relation holds in each so far")
    ends = "" if ENDS >= B else f", end marks {ENDS}"
    return (f"senders {W}, mailboxes {B}, nodes {N}, posts {K}{ends}: {len(seen)} states, "
            f"{made} steps, answers {answers}: relation holds in each")


# ---- schedules

STEPS = ["LoadTurn", "StoreLine", "EndLine", "StoreAmount", "StoreNull", "SwapHead", "StoreLink"]


def picked(rng, l, due):
    """a step that is due, or once in eight times any step of anybody, in any mailbox"""
    if rng.random() >= 0.12:
        b, (step, *_) = rng.choice(due)
        return b, step
    W, B = len(l.senders), len(l.heads)
    b = rng.randint(0, B) if B > 1 else 0
    p, n = rng.randint(0, W), rng.randint(0, len(l.nodes))
    return b, rng.choice([(rng.choice(STEPS), p), ("LoadNext",), ("LoadHead",), ("StubNull",),
                          ("StubSwap",), ("StubLink",), ("GiveBack", n)])


def vectors(count, seed, most_mailboxes):
    """prints random schedules

    Each has a head 'core SENDERS NODES' or 'pool SENDERS MAILBOXES NODES'; its steps, those of a
    pool 'in' a mailbox, with 'moved' or 'not', and after each step that finished a call what the
    call answered; last the words head, of each mailbox, and next, turn, line, amount of each node.
    """
    rng = random.Random(seed)
    for _ in range(count):
        W, N = 3 if LONG else rng.randint(1, 3), rng.randint(1, 3)
        B = 1 if most_mailboxes == 1 else rng.randint(2, most_mailboxes)
        print(f"core {W} {N}" if B == 1 else f"pool {W} {B} {N}")
        print_words(run_schedule(rng, W, B, N))


def run_schedule(rng, W, B, N):
    """makes random steps, prints each, and answers the core that they leave"""
    posts = 25 if LONG else 6
    l, q = opening_pooled(W, B, N), opening_pool(W, B)
    for _ in range(800 * B if LONG else rng.randint(5, 120 * B)):
        due = [(b, x) for b in range(B) for x in steps_in(l, q, b, posts)
               if x.step[0] not in ("LoadLine", "LoadAmount")]
        picks = [(b, x) for b, x in due
                 if not LONG or x.step[0] != "EndLine" or l.senders[x.step[1]].count == posts]
        if not picks:
            break
        b, step = picked(rng, l, picks)
        if LONG and step[0] == "EndLine" and (b, step) not in [(c, x.step) for c, x in picks]:
            continue
        if step[0] == "LoadTurn":
            p = step[1]
            count_of = l.senders[p].count if p < W else 0
            step = ("LoadTurn", p, *post(p, count_of)[1:])
            if p < W and count_of >= posts:
                continue
        found = [x for c, x in due if (c, x.step) == (b, step)]
        where = f"{shown(step)} in {b}" if B > 1 else shown(step)
        if not found:
            print(f"{where} not")
            continue
        _, core, event, answer = found[0]
        l, q = core, led_to(l, q, b, step, event)
        print(f"{where} moved" + (f" {answer}" if answer else ""))
    return l


def print_words(l):
    """prints the words of a core at the end of a schedule"""
    B = len(l.heads)
    for head in l.heads:
        print(f"head {head}")
    for n, node in enumerate(l.nodes):
        holder = l.holders[n]
        held = "" if holder is None else f" held by {holder}" if B > 1 else " held"
        print(f"node {n} {node.next} {node.turn} {node.line} {node.amount}{held}")
    print()


def options():
    """the command line"""
    parser = argparse.ArgumentParser(prog="model.explore", description=__doc__,
                                     formatter_class=argparse.RawDescriptionHelpFormatter)
    parser.add_argument("numbers", nargs="*", type=int, help="SENDERS NODES POSTS [MOST]")
    parser.add_argument("--vectors", nargs=2, type=int, metavar=("COUNT", "SEED"))
    parser.add_argument("--mailboxes", type=int, default=1)
    parser.add_argument("--ends", type=int, default=ENDS)
    parser.add_argument("--long", action="store_true")
    parser.add_argument("--wrong", metavar="NAME")
    a = parser.parse_args()
    if not a.vectors and len(a.numbers) not in (3, 4):
        parser.error("there have to be SENDERS NODES POSTS, or --vectors COUNT SEED")
    a.wrongs = WRONGS if a.mailboxes == 1 else WRONGS + WRONG_POOLS
    if a.wrong not in (None, "all", *a.wrongs):
        parser.error(f"--wrong is all or one of {' '.join(a.wrongs)}")
    return a


def main():
    global ENDS, LONG, WRONG
    a = options()
    ENDS, LONG = a.ends, a.long
    if a.vectors:
        WRONG = a.wrong
        vectors(*a.vectors, a.mailboxes)
        return
    found_out = []
    for WRONG in a.wrongs if a.wrong == "all" else [a.wrong]:
        head = f"{WRONG}: " if WRONG else ""
        W, N, K, *most = a.numbers
        try:
            print(head + explore(W, a.mailboxes, N, K, *most))
        except Refused as broken:
            print(f"{head}{'found out' if WRONG else 'refused'} {broken}")
            found_out.append(WRONG)
    sys.exit(found_out != a.wrongs if a.wrong == "all" else len(found_out))


if __name__ == "__main__":
    main()
