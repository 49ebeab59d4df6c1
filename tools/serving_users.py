"""What each user has of a line that users share: rows of `tools/serving`, each with a server of its own."""
from serving_kit import Late, Server, slack, want
from serving_pace import read_until
from serving_reload import begun, closed, text_of

# (a sixteenth of it is twelve whole segments a second)
LINE = 800_000
# In 64 ms, the longest time between two rounds, it earns four times what a transfer asks for at most.
LARGE_LINE = 4_000_000
WORDS = ["--login-delay", "0", "--share-by", "users"]
BIG = {"big": 400_000_000}


def served(users, rate=LINE, more="", words=WORDS):
    """A server of these users, each with more lines of a table, whose line is shared among them unless other words say otherwise."""
    server = Server(sessions=0, root="folder", files=BIG, reload=True, passive=16, words=words)
    server.made_text()
    server.text = text_of(server, rate, users, more)
    return server


def shared(groups, seconds, line=LINE):
    """The parts of what comes in so many seconds of the line that each group of downloads has, once they all run."""
    datas = [data for pairs in groups for _, data in pairs]
    read_until(datas, line)
    had = read_until(datas, seconds * line)
    parts, place = [], 0
    for pairs in groups:
        parts.append([it / sum(had) for it in had[place : place + len(pairs)]])
        place += len(pairs)
    return parts


def are(parts, wanted):
    """Whether each transfer of a group has this part of the line, within a fifth of it (so a ninth is no sixteenth)."""
    return all(abs(part - one) < one / 5 for group, one in zip(parts, wanted) for part in group)


def one_download_beside_eight_of_another():
    """Two users share the line: the one download of ann has half, and each of bob's eight a sixteenth. Among sessions each of the nine has a ninth."""
    for words, wanted in ((WORDS, (1 / 2, 1 / 16)), (WORDS[:2], (1 / 9, 1 / 9))):
        with served({"ann": "", "bob": ""}, words=words) as server:
            groups = [begun(server, 1, "ann"), begun(server, 8, "bob")]
            parts = shared(groups, 4)
            want(are(parts, wanted), f"parts {wanted} of the line: {parts}")
            for pairs in groups:
                closed(pairs)


def users_within_a_group():
    """The group of ann and bob has half the line beside dora, who is in none; ann has half of that, and each of bob's four downloads a quarter of the other half."""
    group = f'[[group]]\nname = "office"\ndown_rate = {LINE // 2}\n'
    with served({"ann": 'group = "office"', "bob": 'group = "office"', "dora": ""}, more=group) as server:
        groups = [begun(server, 1, "ann"), begun(server, 4, "bob"), begun(server, 2, "dora")]
        parts = shared(groups, 4)
        want(are(parts, (1 / 4, 1 / 16, 1 / 4)), f"parts of the line: {parts}")
        for pairs in groups:
            closed(pairs)


def what_a_session_rate_leaves_goes_to_the_others():
    """Each of bob's four downloads has the sixteenth of the line that is its session's rate, and ann has the rest, which is more than her half."""
    with served({"ann": "", "bob": f"session_down_rate = {LINE // 16}"}) as server:
        groups = [begun(server, 1, "ann"), begun(server, 4, "bob")]
        parts = shared(groups, 4)
        want(are(parts, (3 / 4, 1 / 16)), f"parts of the line: {parts}")
        for pairs in groups:
            closed(pairs)


def a_guarantee_comes_before_the_share_of_a_user():
    """The session of ann is guaranteed three quarters of the line, and has them; bob's four downloads share the rest."""
    with served({"ann": f"session_down_floor = {LINE * 3 // 4}", "bob": ""}) as server:
        groups = [begun(server, 1, "ann"), begun(server, 4, "bob")]
        parts = shared(groups, 4)
        want(are(parts, (3 / 4, 1 / 16)), f"parts of the line: {parts}")
        for pairs in groups:
            closed(pairs)


def a_large_guarantee_beside_many():
    """The session of ann is guaranteed three quarters of a line, and has them beside bob's fifteen downloads, among users and among sessions: rounds are held as often as she has to ask."""
    for words in (WORDS, WORDS[:2]):
        with served({"ann": f"session_down_floor = {LARGE_LINE * 3 // 4}", "bob": ""}, rate=LARGE_LINE, words=words) as server:
            groups = [begun(server, 1, "ann"), begun(server, 15, "bob")]
            parts = shared(groups, 4, LARGE_LINE)
            # (on a busy machine she asks too late for some rounds)
            if parts[0][0] < 3 / 5 / slack():
                raise Late(f"three quarters of the line are guaranteed: {parts}")
            for pairs in groups:
                closed(pairs)


def users_share_across_a_reload():
    """The line is halved while nine downloads run: ann still has half of it, and each of bob's eight a sixteenth."""
    users = {"ann": "", "bob": ""}
    with served(users, rate=2 * LINE) as server:
        groups = [begun(server, 1, "ann"), begun(server, 8, "bob")]
        shared(groups, 4)
        server.reloaded(text_of(server, LINE, users))
        parts = shared(groups, 4)
        want(are(parts, (1 / 2, 1 / 16)), f"parts of the line: {parts}")
        for pairs in groups:
            closed(pairs)


ROWS = [
    one_download_beside_eight_of_another,
    users_within_a_group,
    what_a_session_rate_leaves_goes_to_the_others,
    a_guarantee_comes_before_the_share_of_a_user,
    a_large_guarantee_beside_many,
    users_share_across_a_reload,
]
