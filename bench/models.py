"""Models for bench/spin, most of them written twice: as a script, and in Promela.

The two have the same processes, which meet on the same channels without a buffer, and the same choices. Who may wait for
ever without being stuck has an `end` label in Promela, and is not among those that the script's search needs. In Promela
a variable is set to 0 behind its last use where SPIN then has fewer states.

Those beside a clock are scripts alone. There no end is invalid, since the clock always goes on; and that somebody can
never move again is said of all ways on from a place, while a formula of SPIN, as `<>[]` over a label, is of one run: it
holds of a run in which somebody else goes on for ever too.
"""

from collections import namedtuple

# A model's name, its script, who must never get stuck in it, and the same in Promela, or nothing.
Model = namedtuple("Model", "name script needed promela")


def channels(names):
    return "".join(f"channel {name};\n" for name in names)


def promela_channels(names, kind="bit"):
    return "".join(f"chan {name} = [0] of {{ {kind} }};\n" for name in names)


def philosophers(users):
    """Each takes the fork before it, then the next one, and gives both back: all may wait in a circle."""
    seats = [(i, (i + 1) % users) for i in range(users)]
    names = [f"{word}{i}" for i in range(users) for word in ("take", "put")]
    script = channels(names) + "".join(
        f"process fork{i} {{ forever {{ sync recv take{i}; sync recv put{i}; }} }}\n"
        f"process p{i} {{ sync send take{i} (); sync send take{j} (); sync send put{i} (); sync send put{j} (); }}\n"
        for i, j in seats
    )
    promela = promela_channels(names) + "".join(
        f"active proctype fork{i}() {{ end: do :: take{i}?_ -> put{i}?_ od }}\n"
        f"active proctype p{i}() {{ take{i}!0; take{j}!0; put{i}!0; put{j}!0 }}\n"
        for i, j in seats
    )
    return Model(f"{users} philosophers", script, [f"p{i}" for i in range(users)], promela)


def alternating_bit(mended):
    """A sender repeats a bit until it comes back. Mended, it offers to send and to receive at once, and lines may lose."""
    names = ["data_in", "data_out", "ack_in", "ack_out"]
    sync = "choose [wrap send data_in (bit) to (2), recv ack_out]" if mended else "choose [recv ack_out, always (2)]"
    hand_on = "sync choose [send {} (bit), always ()];" if mended else "sync send {} (bit);"
    script = channels(names) + (
        f"process sender {{ let bit = 0; forever {{ {'' if mended else 'sync send data_in (bit); '}got <- sync {sync}; "
        "if got = bit { let bit = 1 - bit; } else { } } }\n"
        f"process data_line {{ forever {{ bit <- sync recv data_in; {hand_on.format('data_out')} }} }}\n"
        "process receiver { forever { bit <- sync recv data_out; sync send ack_in (bit); } }\n"
        f"process ack_line {{ forever {{ bit <- sync recv ack_in; {hand_on.format('ack_out')} }} }}\n"
    )
    first, other = ("", "data_in!now -> got = 2") if mended else ("data_in!now; ", "got = 2")
    hand_on, forget = ("if :: {}!now :: skip fi; now = 0", "; {} = 0") if mended else ("{}!now", "")
    promela = promela_channels(names) + (
        f"active proctype sender() {{ bit now; byte got; do :: {first}if :: ack_out?got :: {other} fi; "
        f"if :: got == now -> now = 1 - now :: else fi{forget.format('got')} od }}\n"
        f"active proctype data_line() {{ bit now; end: do :: data_in?now -> {hand_on.format('data_out')} od }}\n"
        f"active proctype receiver() {{ bit now; end: do :: data_out?now -> ack_in!now{forget.format('now')} od }}\n"
        f"active proctype ack_line() {{ bit now; end: do :: ack_in?now -> {hand_on.format('ack_out')} od }}\n"
    )
    return Model("alternating bit, mended" if mended else "alternating bit", script, ["sender"], promela)


PETERSON = ["set_a", "set_b", "set_turn"]
SIGNS = ["a_is_out", "b_is_out", "turn_a", "turn_b", "nobody"]


def peterson_script(goes_on):
    flags = [("flag_a", "set_a", "a_is_out"), ("flag_b", "set_b", "b_is_out"), ("turn", "set_turn", "nobody")]
    before, behind = ("forever { ", "} ") if goes_on else ("", "")
    return channels([*PETERSON, *SIGNS, "enter", "leave"]) + "".join(
        f"process {name} {{ let sign = {sign}; forever {{ sign <- sync choose [recv {put}, wrap send sign () to (sign)]; }} }}\n"
        for name, put, sign in flags
    ) + "".join(
        f"process {me} {{ {before}sync send set_{me} (nobody); sync send set_turn (turn_{you}); "
        f"sync choose [recv {you}_is_out, recv turn_{me}]; sync send enter (); sync send leave (); "
        f"sync send set_{me} ({me}_is_out); {behind}}}\n"
        for me, you in ("ab", "ba")
    ) + ("process observer { forever { sync recv enter; both <- sync choose [wrap recv leave to (0), wrap recv enter to (1)]; "
         "if both = 1 { end; } else { } } }\n")


def peterson(goes_on):
    """Peterson's lock, its flags as processes. An observer who sees both inside ends, so that both get stuck."""
    signs = "".join(f"chan {name} = [0] of {{ bit }};\n" for name in [*SIGNS, "enter", "leave"])
    sets = "".join(f"chan {name} = [0] of {{ chan }};\n" for name in PETERSON)
    before, behind = ("do :: ", " od") if goes_on else ("", "")
    promela = signs + sets + (
        "proctype flag(chan set; chan sign) { end: do :: set?sign :: sign!0 od }\n"
        "active proctype observer() { end: do :: enter?_ -> if :: leave?_ :: enter?_ -> break fi od }\n"
        "init { atomic { run flag(set_a, a_is_out); run flag(set_b, b_is_out); run flag(set_turn, nobody) } }\n"
    ) + "".join(
        f"active proctype {me}() {{ {before}set_{me}!nobody; set_turn!turn_{you}; if :: {you}_is_out?_ :: turn_{me}?_ fi; "
        f"enter!0; leave!0; set_{me}!{me}_is_out{behind} }}\n"
        for me, you in ("ab", "ba")
    )
    return Model("Peterson, for ever" if goes_on else "Peterson, once", peterson_script(goes_on), ["a", "b"], promela)


def two_phase(members, leave):
    """A coordinator asks the members, who vote, and tells them what is decided. Some leave where they vote no."""
    names, asked = [f"{word}{i}" for word in ("ask", "vote", "tell") for i in range(members)], range(members)
    gone = "if vote = 0 { end; } else { } " if leave else ""
    script = channels(names) + (
        "process coordinator { let yes = 0; let commit = 0; "
        + "".join(f"sync send ask{i} (); " for i in asked)
        + "".join(f"vote <- sync recv vote{i}; let yes = yes + vote; " for i in asked)
        + f"if yes = {members} {{ let commit = 1; }} else {{ }} "
        + "".join(f"sync send tell{i} (commit); " for i in asked) + "}\n"
    ) + "".join(
        f"process member{i} {{ sync recv ask{i}; vote <- sync choose [always (0), always (1)]; "
        f"sync send vote{i} (vote); {gone}sync recv tell{i}; }}\n"
        for i in asked
    )
    gone, forget = ("if :: vote == 0 -> goto gone :: else fi; ", "") if leave else ("", "vote = 0; ")
    promela = promela_channels(names) + (
        "active proctype coordinator() { byte yes; bit vote, commit; " + "".join(f"ask{i}!0; " for i in asked)
        + "".join(f"vote{i}?vote; yes = yes + vote; {forget}" for i in asked) + f"commit = (yes == {members}); "
        + "; ".join(f"tell{i}!commit" for i in asked) + " }\n"
    ) + "".join(
        f"active proctype member{i}() {{ bit vote; ask{i}?_; if :: vote = 0 :: vote = 1 fi; vote{i}!vote; "
        f"{gone}{forget}tell{i}?_{'; gone: skip' if leave else ''} }}\n"
        for i in asked
    )
    name = f"two phases, {members} " + ("who leave" if leave else "members")
    return Model(name, script, ["coordinator", *(f"member{i}" for i in asked)], promela)


def readers_writers(readers, writers):
    """A room lets readers in together and a writer alone, again and again, by offers under a condition."""
    users = [("reader", "read", readers), ("writer", "write", writers)]
    names = ["start_read", "end_read", "start_write", "end_write", "off"]
    script = channels(names) + (
        "process room { let readers = 0; let writing = 0; forever { readers, writing <- sync guard { let read = off; "
        "let write = off; if writing = 0 { let read = start_read; if readers = 0 { let write = start_write; } else { } } "
        "else { } } choose [wrap recv read to (readers + 1, 0), wrap recv end_read to (readers - 1, 0), "
        "wrap recv write to (0, 1), wrap recv end_write to (0, 0)]; } }\n"
    ) + "".join(
        f"process {user}{i} {{ forever {{ sync send start_{act} (); sync send end_{act} (); }} }}\n"
        for user, act, count in users for i in range(count)
    )
    promela = promela_channels(names) + (
        "active proctype room() { byte readers; bit writing; chan read; chan write;\n"
        "do :: atomic { read = off; write = off; if :: writing :: else -> read = start_read; "
        "if :: readers == 0 -> write = start_write :: else fi fi }\n"
        "end: if :: read?_ -> readers++ :: end_read?_ -> readers-- :: write?_ -> writing = 1 :: end_write?_ -> writing = 0 "
        "fi od }\n"
    ) + "".join(
        f"active [{count}] proctype {user}() {{ do :: start_{act}!0; end_{act}!0 od }}\n" for user, act, count in users
    )
    needed = [f"{user}{i}" for user, _, count in users for i in range(count)]
    return Model(f"{readers} readers, {writers} writers", script, needed, promela)


def registers(starts):
    """Shared variables: each is a process that offers to be read and to be written. Their channels, and both texts."""
    names = [f"{word}_{name}" for name in starts for word in ("get", "set")]
    script = "".join(
        f"process {name} {{ let x = {start}; forever {{ x <- sync choose [wrap send get_{name} (x) to (x), recv set_{name}]; }} }}\n"
        for name, start in starts.items()
    )
    promela = "".join(
        f"active proctype {name}() {{ byte x = {start}; end: do :: get_{name}!x :: set_{name}?x od }}\n"
        for name, start in starts.items()
    )
    return names, script, promela


def user_of_three(me, others):
    """One who goes through both stages: past each other one who is behind, or where another came to the stage later."""
    passing = "".join(
        f"if at = {place} {{ seen <- sync recv get_flag{other}; if seen < stage {{ let at = {place + 1}; }} else {{ "
        "if stage = 0 { last <- sync recv get_last0; } else { last <- sync recv get_last1; } "
        f"if last = {me} {{ }} else {{ let at = {place + 1}; }} }} }} else {{\n"
        for place, other in enumerate(others, 1)
    )
    return (
        f"process user{me} {{ let stage = 0; let at = 0; forever {{ sync always ();\nif at = 0 {{ sync send set_flag{me} (stage); "
        f"if stage = 0 {{ sync send set_last0 ({me}); }} else {{ sync send set_last1 ({me}); }} let at = 1; }} else {{\n{passing}"
        "if stage = 0 { let stage = 1; let at = 0; } else { sync send enter (); sync send leave (); "
        f"sync send set_flag{me} (0); let stage = 0; let at = 0; }} }} }} }} }} }}\n"
    )


def user_of_three_in_promela(me, others):
    """The same; what was read is 0 again behind its test."""
    passing = "".join(
        f":: at == {place} -> get_flag{other}?seen; if :: seen < stage -> at = {place + 1} :: else -> "
        f"if :: stage == 0 -> get_last0?last :: else -> get_last1?last fi; if :: last == {me} :: else -> at = {place + 1} fi; "
        "last = 0 fi; seen = 0\n"
        for place, other in enumerate(others, 1)
    )
    return (
        f"active proctype user{me}() {{ byte stage, at, seen, last; do\n:: at == 0 -> set_flag{me}!stage; "
        f"if :: stage == 0 -> set_last0!{me} :: else -> set_last1!{me} fi; at = 1\n{passing}"
        ":: at == 3 && stage == 0 -> stage = 1; at = 0\n"
        f":: at == 3 && stage == 1 -> enter!0; leave!0; set_flag{me}!0; stage = 0; at = 0 od }}\n"
    )


def peterson_of_three():
    """Peterson's lock of three users, again and again; an observer counts who is inside."""
    names, shared, promela = registers({"last0": 0, "last1": 0, "flag0": 0, "flag1": 0, "flag2": 0})
    users = [(me, [other for other in range(3) if other != me]) for me in range(3)]
    script = channels([*names, "enter", "leave"]) + shared + (
        "process observer { let inside = 0; forever { inside <- sync choose [wrap recv enter to (inside + 1), "
        "wrap recv leave to (inside - 1)]; if 1 < inside { print 99; end; } else { } } }\n"
    ) + "".join(user_of_three(*user) for user in users)
    promela = promela_channels(names, "byte") + promela_channels(["enter", "leave"]) + promela + (
        "active proctype observer() { byte inside; end: do :: enter?_ -> inside++; assert(inside < 2) :: leave?_ -> inside-- od }\n"
    ) + "".join(user_of_three_in_promela(*user) for user in users)
    return Model("Peterson, 3 users", script, [f"user{me}" for me in range(3)], promela)


def go_back():
    """Three items by numbers modulo three, at most two on their way, over lines that may lose; then the sender ends."""
    names = ["data", "data_out", "ack", "ack_out", "off", "tick"]
    script = channels(names) + (
        "process sender { let base = 0; let number = 0; let next = 0; let sent = 0; forever {\n"
        "what, a <- sync guard { let out = off; let late = off; if next < 3 { if next < base + 2 { let out = data; } else { } } else { } "
        "if base < next { let late = tick; } else { } }\nchoose [wrap send out (sent, next) to (0, 0), "
        "wrap recv ack_out as a to (1, a), wrap recv late to (2, 0)];\n"
        "if what = 0 { let next = next + 1; let sent = sent + 1; if sent = 3 { let sent = 0; } else { } } else { }\n"
        "if what = 2 { let next = base; let sent = number; } else { }\n"
        "if what = 1 { let s = number + 1; if s = 3 { let s = 0; } else { } if a = s { let n = 1; } else { let s = s + 1; "
        "if s = 3 { let s = 0; } else { } if a = s { let n = 2; } else { let n = 0; } }\n"
        "if n = 0 { } else { if base + n < next + 1 { let base = base + n; let number = a; } else { } } "
        "if base = 3 { end; } else { } } else { } } }\n"
        "process clock { forever { sync send tick (); } }\n"
        "process data_line { forever { s, x <- sync recv data; sync choose [send data_out (s, x), always ()]; } }\n"
        "process ack_line { forever { a <- sync recv ack; sync choose [send ack_out (a), always ()]; } }\n"
        "process receiver { let want = 0; let item = 0; forever { s, x <- sync recv data_out; if s = want { if x = item { } "
        "else { print 99; end; } let item = item + 1; let want = want + 1; if want = 3 { let want = 0; } else { } } else { } "
        "sync send ack (want); } }\n"
    )
    promela = promela_channels(["data", "data_out", "off"], "byte, byte") + promela_channels(["ack", "ack_out", "tick", "idle"], "byte") + (
        "active proctype sender() { byte base, number, next, sent, a, n; chan out, late; do :: atomic { out = off; late = idle; "
        "if :: next < 3 && next < base + 2 -> out = data :: else fi; if :: base < next -> late = tick :: else fi }\n"
        "if :: out!sent,next -> atomic { next++; sent = (sent + 1) % 3 } :: late?_ -> atomic { next = base; sent = number }\n"
        ":: ack_out?a -> atomic { if :: a == (number + 1) % 3 -> n = 1 :: a == (number + 2) % 3 -> n = 2 :: else -> n = 0 fi; "
        "if :: n && base + n < next + 1 -> base = base + n; number = a :: else fi; a = 0; n = 0; if :: base == 3 -> break :: else fi } fi od }\n"
        "active proctype clock() { end: do :: tick!0 od }\n"
        "active proctype data_line() { byte s, x; end: do :: data?s,x -> if :: data_out!s,x :: skip fi; s = 0; x = 0 od }\n"
        "active proctype ack_line() { byte a; end: do :: ack?a -> if :: ack_out!a :: skip fi; a = 0 od }\n"
        "active proctype receiver() { byte want, item, s, x; end: do :: data_out?s,x -> if :: s == want -> assert(x == item); "
        "item++; want = (want + 1) % 3 :: else fi; s = 0; x = 0; ack!want od }\n"
    )
    return Model("go-back-N, 3 items", script, ["sender"], promela)


def raft_node(me, others):
    """Asks for votes once, when the clock says so, and votes for the first who asks in a term, by the channel that came."""
    asks = "".join(f" sync send req{other} (term, ack{me});" for other in others)
    script = (
        f"process node{me} {{ let term = 0; let role = 0; let voted = none; let votes = 0; forever {{\n"
        "what, t, from <- sync guard { let late = off; if term < 1 { let late = tick; } else { } } "
        f"choose [wrap recv req_out{me} as t, from to (0, t, from), wrap recv ack_out{me} as t to (1, t, none), "
        "wrap recv late to (2, 0, none)];\n"
        "if what = 0 { if term < t { let term = t; let role = 0; let voted = none; let votes = 0; } else { } "
        "if t = term { let ok = 0; if voted = none { let ok = 1; } else { } if voted = from { let ok = 1; } else { } "
        "if ok = 1 { let voted = from; sync send from (t); } else { } } else { } } else {\n"
        "if what = 1 { if t = term { if role = 1 { let votes = votes + 1; if votes = 2 { let role = 2; "
        "sync send elected (term); } else { } } else { } } else { } } else {\n"
        f"let term = term + 1; let role = 1; let voted = ack{me}; let votes = 1;{asks} }} }} }} }}\n"
    )
    asks = "".join(f" req{other}!1,ack{me};" for other in others)
    promela = (
        f"active proctype node{me}() {{ byte term, votes, t; bit asks; chan voted, from, late; atomic {{ voted = none; from = none; "
        "late = tick };\ndo\n"
        f":: atomic {{ req_out{me}?t,from -> if :: term < t -> term = t; asks = 0; voted = none; votes = 0; late = idle :: else fi; "
        "if :: t == term && (voted == none || voted == from) -> voted = from :: else -> from = none fi; t = 0 }; "
        "if :: from != none -> from!term; from = none :: else fi\n"
        f":: atomic {{ ack_out{me}?t -> if :: t == term && asks -> votes++ :: else fi; t = 0 }}; "
        "if :: asks && votes == 2 -> asks = 0; elected!term :: else fi\n"
        f":: atomic {{ late?_ -> term = 1; asks = 1; voted = ack{me}; votes = 1; late = idle }};{asks} od }}\n"
    )
    return script, promela


def raft():
    """Three nodes elect a leader in one term, over lines of one message that may lose. They wait when it is over."""
    script = channels(["none", "off", "tick", "elected", *(f"{word}{i}" for i in range(3) for word in ("req", "req_out", "ack", "ack_out"))])
    promela = promela_channels(["none", "tick", "idle", "elected"], "byte") + "".join(
        promela_channels([f"req{i}", f"req_out{i}"], "byte, chan") + promela_channels([f"ack{i}", f"ack_out{i}"], "byte") for i in range(3)
    )
    nodes = [raft_node(me, [(me + 1) % 3, (me + 2) % 3]) for me in range(3)]
    script += "".join(
        f"process req_line{i} {{ forever {{ t, from <- sync recv req{i}; sync choose [send req_out{i} (t, from), always ()]; }} }}\n"
        f"process ack_line{i} {{ forever {{ t <- sync recv ack{i}; sync choose [send ack_out{i} (t), always ()]; }} }}\n"
        for i in range(3)
    ) + "process clock { forever { sync send tick (); } }\n" + "".join(node[0] for node in nodes) + (
        "process observer { let one = 0; forever { sync recv elected; let one = one + 1; if 1 < one { print 99; end; } else { } } }\n"
    )
    promela += "".join(
        f"active proctype req_line{i}() {{ byte t; chan from; end: do :: req{i}?t,from -> if :: req_out{i}!t,from :: skip fi; t = 0; from = none od }}\n"
        f"active proctype ack_line{i}() {{ byte t; end: do :: ack{i}?t -> if :: ack_out{i}!t :: skip fi; t = 0 od }}\n"
        for i in range(3)
    ) + "active proctype clock() { end: do :: tick!0 od }\n" + "".join(node[1] for node in nodes) + (
        "active proctype observer() { byte one; end: do :: elected?_ -> one++; assert(one < 2) od }\n"
    )
    return Model("Raft, one term", script, [f"node{me}" for me in range(3)], promela)


def election(nodes):
    """A ring in which the greatest number comes round, and then a 0 that ends all. A line stands behind each node."""
    ring = [(i, nodes - i, (i + 1) % nodes) for i in range(nodes)]
    names = [f"{word}{i}" for i in range(nodes) for word in ("out", "into")]
    script = channels(names) + "".join(
        f"process node{i} {{ sync send out{i} ({own}); forever {{ seen <- sync recv into{i}; "
        f"if seen = {own} {{ sync send out{i} (0); sync recv into{i}; end; }} else {{ }} "
        f"if seen = 0 {{ sync send out{i} (0); end; }} else {{ }} "
        f"if {own} < seen {{ sync send out{i} (seen); }} else {{ }} }} }}\n"
        f"process line{i} {{ forever {{ seen <- sync recv out{i}; sync send into{after} (seen); }} }}\n"
        for i, own, after in ring
    )
    promela = promela_channels(names, "byte") + "".join(
        f"active proctype node{i}() {{ byte seen; out{i}!{own}; do :: into{i}?seen -> "
        f"if :: seen == {own} -> out{i}!0; into{i}?_; break :: seen == 0 -> out{i}!0; break "
        f":: seen > {own} -> out{i}!seen :: else fi od }}\n"
        f"active proctype line{i}() {{ byte seen; end: do :: out{i}?seen -> into{after}!seen od }}\n"
        for i, own, after in ring
    )
    return Model(f"election among {nodes}", script, [f"node{i}" for i in range(nodes)], promela)


def lock_server(users):
    """Users add one to a counter, each under a lock that a server keeps."""
    names = ["acquire", "release", "read", "write"]
    script = channels(names) + (
        "process lock { forever { sync recv acquire; sync recv release; } }\n"
        "process counter { let value = 0; forever { value <- sync choose [wrap send read (value) to (value), recv write]; } }\n"
    ) + "".join(
        f"process user{i} {{ sync send acquire (); seen <- sync recv read; sync send write (seen + 1); sync send release (); }}\n"
        for i in range(users)
    )
    promela = promela_channels(names, "byte") + (
        "active proctype lock() { end: do :: acquire?_ -> release?_ od }\n"
        "active proctype counter() { byte value; end: do :: read!value :: write?value od }\n"
        f"active [{users}] proctype user() {{ byte seen; acquire!0; read?seen; write!seen + 1; seen = 0; release!0 }}\n"
    )
    return Model(f"lock, {users} users", script, [f"user{i}" for i in range(users)], promela)


def beside_clock(model):
    """The same, and a clock goes on for ever, whoever gets stuck."""
    return Model(f"{model.name}, a clock", f"{model.script}process clock {{ forever {{ sync always (); }} }}\n", model.needed, None)


ALL = [
    *map(philosophers, (5, 7, 9)),
    *map(alternating_bit, (False, True)),
    *map(peterson, (False, True)),
    peterson_of_three(),
    go_back(),
    raft(),
    two_phase(2, leave=True),
    two_phase(8, leave=False),
    readers_writers(8, 2),
    election(6),
    lock_server(10),
    *map(beside_clock, (philosophers(9), alternating_bit(False), two_phase(2, leave=True))),
]
