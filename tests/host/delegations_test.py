"""Tests of finding delegations, and of who stands behind a uid or a gid."""
import os
import random
import tempfile
import unittest
from unittest import mock

from called import PROGRAM, called
from made_up import DELEGATED, TOP, MadeUpTest, accounts_with, path
from zirofen_host.collect.accounts import Accounts, accounts_here
from zirofen_host.ask import delegations, questions
from zirofen_host.ask.delegations import Delegations
from zirofen_host.ask.model import Answer, Holders, Pair
from zirofen_host.collect import elsewhere
from zirofen_host.fault import Fault
from zirofen_host.profile import text_of
from zirofen_host.collect.tree import read_tree
from zirofen_host.collect.model import Account, AccountLists, Entry, Group, Range, Row, Tree, User
from zirofen_host.collect.snapshot import tree_text

PASSWD = """root:x:0:0::/root:/bin/sh
alice:x:1000:1000::/home/alice:/bin/sh
bob:x:1001:1001::/home/bob:/bin/sh
"""
GROUP = """root:x:0:
team:x:50:alice,bob
alice:x:1000:
bob:x:1001:
"""
SUBORDINATE = "alice:100000:65536\nbob:165536:65536\n"


def handed(uid, gid=0, mode=0o644, directory_mode=0o755):
    """Entries that were handed over."""
    return {"directory": Entry(uid, gid, directory_mode),
            "files": {file: Entry(uid, gid, mode) for file in ("cgroup.procs", "cgroup.subtree_control")}}


def row(place, **more):
    return Row(path(place), **more)


def tree(*rows, enabled=()):
    return Tree(("memory",), {each.path: each for each in (row("/", enabled=enabled), *rows)})


def found(of, accounts=accounts_with()):
    return [(each.user.uid, each.user.gids, text_of(each.path)) for each in Delegations(of, accounts).find()]


class AlikeTest(unittest.TestCase):
    """Users of one uid who differ by their groups are asked as few; what is found is what is found of each."""

    def test_each_way_to_be_in_some_groups_once(self):
        users = [User(1, (10, 50, 51)), User(1, (10, 50)), User(1, (10, 51)), User(1, (10,)), User(1, (10, 50, 52))]
        alike = delegations.Alike(users)
        self.assertEqual(set(alike.apart((50, 51))), set(users[:4]))
        self.assertEqual(set(alike.apart((50,))), {users[0], users[2]})
        self.assertEqual((alike.apart(()), alike.apart((99,)), alike.apart((10,))), ([users[0]],) * 3)
        self.assertEqual(delegations.Alike([]).apart((50,)), [])

    def made_up(self, drawn):
        """A tree of few groups, and users of whom many differ by these alone."""
        ids = (0, 0, 1000, 1001, 100007)

        def entry(modes):
            return Entry(drawn.choice(ids), drawn.choice((0, 50, 51, 52, 100007)), drawn.choice(modes))
        rows = [row("/")]
        for place in ("/a", "/a/b", "/a/b/c", "/d", "/d/e"):
            names = ("cgroup.procs", "cgroup.subtree_control", "cgroup.max.depth", "memory.max")
            rows.append(row(place, directory=entry((0o755, 0o775, 0o757, 0o705)), enabled=("memory",),
                            files={name: entry((0o644, 0o664, 0o646, 0o604, 0o626)) for name in names}))
        groups = (50, 51, 52, 53, 54)
        running = {User(uid, (uid, *sorted(drawn.sample(groups, drawn.randrange(5))))) for uid in (1000, 1001) for _ in range(6)}
        lists = AccountLists((Account("alice", 1000, 1000),), (Group(50, ("alice",)),), (Range("alice", 100000, 65536),),
                             (Range("alice", 100000, 65536),))
        return Tree(("memory",), {each.path: each for each in rows}), Accounts(lists, running)

    def test_what_is_found_is_what_is_found_of_each(self):
        drawn = random.Random(92)
        for _ in range(300):
            of, accounts = self.made_up(drawn)
            few, each = Delegations(of, accounts), Delegations(of, accounts)
            each.few_candidates = each.candidates
            self.assertEqual(list(few.handed()), [place for place in of.rows if place in {path for path, _ in each.find()}])
            for place in of.rows:
                for is_meant in (False, True):
                    self.assertEqual(questions.holders_of(few, place, is_meant), questions.holders_of(each, place, is_meant))


class DelegationsTest(unittest.TestCase):
    def test_the_top_of_what_is_handed_over(self):
        of = tree(row("/a"), row("/a/b", **handed(1000)), row("/a/b/c", **handed(1000)), row("/a/bb", **handed(1001)))
        self.assertEqual(found(of), [(1000, (), "/a/b"), (1001, (), "/a/bb")])

    def test_nothing_is_found_where_root_has_all(self):
        self.assertEqual(found(tree(row("/a"), row("/a/b"))), [])

    def test_another_user_within(self):
        of = tree(row("/a", **handed(1000)), row("/a/b", **handed(100000)), row("/a/b/c", **handed(100000)))
        self.assertEqual(found(of), [(1000, (), "/a"), (100000, (), "/a/b")])

    def test_a_parent_directory_hides_no_delegation(self):
        of = tree(row("/a", directory=Entry(1000, 0, 0o755)), row("/a/b", **handed(1000)))
        self.assertEqual(found(of), [(1000, (), "/a"), (1000, (), "/a/b")])

    def test_a_limit_alone(self):
        of = tree(row("/a", files={"memory.max": Entry(1000, 0, 0o444)}), row("/b"), enabled=("memory",))
        self.assertEqual(found(of), [(1000, (), "/a")])

    def test_a_limit_of_his_own_making_is_none(self):
        limit = {"memory.max": Entry(1000, 0, 0o644)}
        inner = row("/a/b", **handed(1000))
        inner.files.update(limit)
        of = tree(row("/a", enabled=("memory",), **handed(1000)), inner, enabled=("memory",))
        self.assertEqual(found(of), [(1000, (), "/a")])

    def test_what_is_his_at_the_root(self):
        of = tree(row("/a", **handed(1000)), row("/a/b", **handed(1000)))
        of.rows[path("/")] = row("/", **handed(1000))
        self.assertEqual(found(of), [(1000, (), "/a")])

    def test_by_a_group(self):
        accounts = accounts_with([Account("alice", 1000, 1000), Account("bob", 1001, 50)],
                                 [Group(50, ["alice"]), Group(7, ["alice"])])
        of = tree(row("/a", **handed(0, 50, 0o664, 0o775)))
        self.assertEqual(found(of, accounts), [(1000, (1000, 7, 50), "/a"), (1001, (50,), "/a")])

    def test_a_group_that_may_not_write_counts_for_nothing(self):
        self.assertEqual(found(tree(row("/a", **handed(0, 50))), accounts_with([Account("bob", 1001, 50)])), [])

    def test_a_group_without_known_members(self):
        self.assertEqual(found(tree(row("/a", **handed(0, 50, 0o664)))), [(65534, (50,), "/a")])
        self.assertEqual(found(tree(row("/a", **handed(0, 0, 0o664)))), [])

    def test_everybody(self):
        self.assertEqual(found(tree(row("/a", **handed(0, 0, 0o646)))), [(65534, (), "/a")])

    def test_more_groups_than_a_user_may_have(self):
        many = accounts_with([Account("alice", 1000, 9)], [Group(gid, ["alice"]) for gid in range(100, 140)])
        of = Delegations(tree(row("/a", **handed(1000, 139, 0o664)), row("/b", **handed(0, 138))), many)
        (_, user), = of.find()
        few, left_out = of.with_few_groups(user, {137})
        self.assertEqual((few.uid, few.gids[0], len(few.gids), {137, 138, 139} - set(few.gids)), (1000, 9, 32, set()))
        self.assertEqual(left_out, [])
        with mock.patch.object(of, "gids_of_tree", set(range(100, 140))):
            self.assertEqual(of.with_few_groups(user, set(range(130, 140)))[1], list(range(121, 130)))


class QuestionsTest(unittest.TestCase):
    """What is asked of a tree alone."""

    ALICE, BOB = User(1000, (1000,)), User(1001, (1001,))

    def questions(self, *rows, **more):
        taken = elsewhere.read(elsewhere.Accepted("", "", tree(*rows, **more)), "/sys/fs/cgroup")
        return questions.questions_of(taken, accounts_with([Account("alice", 1000, 1000), Account("bob", 1001, 1001)]))

    def asked(self, some):
        return [(users, [text_of(each) for each in paths]) for users, paths in some]

    def test_everybody_is_asked_of_every_subtree(self):
        of = self.questions(row("/a", **handed(1000)), row("/b", **handed(1001)))
        self.assertEqual((of.subtrees, of.meant), ((path("/a"), path("/b")), {}))
        self.assertEqual(of.holders[path("/a")], Holders("owner", (1000,), frozenset({1000})))
        plan = questions.plan_of(of)
        self.assertEqual(self.asked(plan.questions), [((self.ALICE, self.BOB), ["/a", "/b"])])
        self.assertEqual((plan.users, plan.cut, questions.plan_of(of)), ((self.ALICE, self.BOB), (), plan))

    def test_what_is_left_out_is_asked_of_no_more(self):
        whole = self.questions(row("/a", **handed(1000)), row("/b", **handed(1001)))
        of = whole.without([path("/a")])
        self.assertEqual((of.subtrees, len(whole.subtrees), of.holders), ((path("/b"),), 2, whole.holders))
        self.assertEqual(self.asked(questions.plan_of(of).questions), [((self.BOB,), ["/b"])])
        self.assertEqual(questions.plan_of(of.without(whole.subtrees)).questions, ())

    def test_where_everybody_is_let_in(self):
        of = self.questions(row("/a", **handed(1000)), row("/b", **handed(1001)), row("/b/c"), enabled=("memory",))
        of.tree.rows[path("/b")].files["memory.max"] = Entry(1001, 0, 0o666)
        plan, anybody = questions.plan_of(of), User(65534, ())
        self.assertEqual(self.asked(plan.questions), [((self.ALICE, self.BOB, anybody), ["/a"]), ((self.BOB, anybody), ["/b"])])
        for lines, further, not_asked in ((("unsettled x",), [((self.ALICE,), ["/b"])], {}), (("escapes", "x"), [], {})):
            answer = Answer(questions.ESCAPES if lines[0] == "escapes" else 2, lines)
            some, left = questions.further_of(of, plan, {Pair(anybody, path("/b")): answer})
            self.assertEqual((self.asked(some), left), (further, not_asked))


class RealTreesTest(unittest.TestCase):
    """The delegations of trees that were taken from running hosts."""

    ACCOUNTS = accounts_with([Account("alice", 1000, 1000), Account("bob", 1001, 1001), Account("builder", 890, 890)],
                             [Group(2000, ["alice", "bob"])], [Range("alice", 100000, 65536)], [Range("alice", 100000, 65536)])
    MANAGER = "/user.slice/user-1000.slice/user@1000.service"
    CONTAINER = "libpod-0ef3b471c021517a3a177f12a695ad2792476642ea54fa128344eaebddc28d93.scope/container"
    ALICE, BOB = (1000, (1000, 2000)), (1001, (1001, 2000))

    def found(self, name):
        with open(f"{TOP}/examples/{name}", encoding="ascii") as text:
            return found(read_tree(text.read()), self.ACCOUNTS)

    def test_user_managers(self):
        self.assertEqual(self.found("host-user-managers.toml"), [
            (*self.ALICE, "/system.slice/alicesvc.service"), (*self.ALICE, self.MANAGER),
            (*self.BOB, "/user.slice/user-1001.slice/user@1001.service")])

    def test_a_rootless_container(self):
        self.assertEqual(self.found("host-rootless-containers.toml"), [
            (*self.ALICE, self.MANAGER), (100000, (100000,), f"{self.MANAGER}/user.slice/{self.CONTAINER}")])

    def test_a_service_that_was_given_away_whole(self):
        self.assertEqual(self.found("host-service-chown.toml"), [(890, (890,), "/system.slice/builder.service")])


class AccountsTest(unittest.TestCase):
    def test_subordinate_ids(self):
        accounts = accounts_with([Account("alice", 1000, 1000)], [],
                                 [Range("alice", 100000, 10), Range("bob", 7, 1), Range("alice", 300000, 10)],
                                 [Range("alice", 200000, 20)])
        self.assertEqual(accounts.users_of(100003), [User(100003, (200003,))])
        self.assertEqual(accounts.users_of(300002), [User(300002, (200012,))])
        self.assertEqual(accounts.users_of(7), [User(7, ())])
        self.assertEqual(accounts.users_of(8), [User(8, ())])
        self.assertEqual(accounts.members_of(200012), [User(300002, (200012,))])
        self.assertEqual(accounts.subordinate_to(1000), [Range("alice", 100000, 10), Range("alice", 300000, 10)])

    def test_subordinate_ids_that_overlap(self):
        ranges = [Range("bob", 50, 100), Range("alice", 0, 1000), Range("alice", 60, 5), Range("carol", 200, 10)]
        accounts = accounts_with([Account("alice", 1000, 1)], [], ranges, [])
        owners = accounts.owners_of_uids.owners
        self.assertEqual(owners(62), [("alice", 62), ("bob", 12), ("alice", 1002)])
        self.assertEqual(owners(205), [("alice", 205), ("carol", 5)])
        self.assertEqual((owners(1000), owners(999)), ([], [("alice", 999)]))
        self.assertEqual(accounts.persons(205), {205, 1000})
        self.assertEqual(accounts.subordinate_to(1000), ranges[1:3])

    def test_running_processes(self):
        running = [User(62264, (62264, 50)), User(1000, (1000, 27)), User(0, (0,))]
        accounts = accounts_with([Account("alice", 1000, 1000)], [Group(27, ["alice"])], running=running)
        self.assertEqual(accounts.users_of(62264), [User(62264, (62264, 50))])
        self.assertEqual(accounts.members_of(50), [User(62264, (62264, 50))])
        self.assertEqual(accounts.users_of(1000), [User(1000, (1000, 27))])
        accounts = accounts_with([Account("alice", 1000, 1000)], [Group(27, ["alice"]), Group(4, ["alice"])], running=running)
        self.assertEqual(accounts.users_of(1000), [User(1000, (1000, 4, 27)), User(1000, (1000, 27))])

    def test_account_files(self):
        with tempfile.TemporaryDirectory() as folder:
            with self.assertRaisesRegex(Fault, "neither passwd nor group"):
                accounts_here(folder, ())
            for name, text in (("passwd", PASSWD + "+nis\nbroken:x:y:z::\n"), ("group", GROUP), ("subuid", SUBORDINATE)):
                with open(f"{folder}/{name}", "w", encoding="ascii") as out:
                    out.write(text)
            accounts = accounts_here(folder, ())
        self.assertEqual(accounts.users_of(1000), [User(1000, (1000, 50))])
        self.assertEqual(accounts.members_of(50), [User(1000, (1000, 50)), User(1001, (1001, 50))])


class ScriptTest(MadeUpTest):
    def script(self, *words, given=""):
        return called("delegations", "--accounts", self.host.etc, "--zirofen", PROGRAM, *words, given=given,
                      env={**os.environ, "CALLS": os.devnull})

    def test_lines(self):
        self.host.accounts(passwd=PASSWD, group=GROUP, subuid=SUBORDINATE, subgid=SUBORDINATE)
        with open(f"{TOP}/examples/delegation.toml", encoding="ascii") as text:
            given = text.read()
        wanted = "1000\t1000,50\t/c0\n1000\t1000,50\t/c1\n"
        self.assertEqual(self.script(given=given).stdout, wanted)
        self.assertEqual(self.script("--tree", f"{TOP}/examples/delegation.toml").stdout, wanted)

    def test_columns_that_a_loop_can_read(self):
        self.host.accounts(passwd=PASSWD, group=GROUP)
        given = "format = 2\ncontrollers = []\n[[cgroup]]\npath = '/'\n[[cgroup]]\npath = '/a'\ndir = { uid = 7 }\n"
        self.assertEqual(self.script(given=given).stdout, "7\t-\t/a\n")

    def test_groups_that_matter_and_dont_go_in(self):
        names = [f"d{number}" for number in range(100, 140)]
        self.host.accounts(passwd="alice:x:1000:1000::/:\n", group="".join(f"{name}:x:{name[1:]}:alice\n" for name in names))
        rows = ["format = 2\ncontrollers = []\n[[cgroup]]\npath = '/'\n"]
        for count, name in enumerate(names):
            path = "/" + "/".join(names[:count + 1])
            rows.append(f"[[cgroup]]\npath = '{path}'\nfiles = {{ 'cgroup.procs' = {{ gid = {name[1:]} }} }}\n")
        ended = self.script(given="".join(rows) + f"[[cgroup]]\npath = '{path}/top'\ndir = {{ uid = 1000 }}\n")
        self.assertEqual((ended.returncode, ended.stdout.count("\n")), (3, 1))
        self.assertEqual(ended.stderr, "groups: uid 1000: 9 of their groups that are in the tree left out: "
                         "a user has 32 at most\n")

    def test_faults(self):
        for words, given in ((("--tree", f"{TOP}/none"), ""), ((), "no text of a tree"), ((), "format = 2\n")):
            with self.subTest(words):
                ended = self.script(*words, given=given)
                line, *help_lines = ended.stderr.splitlines()
                self.assertEqual((ended.stdout, ended.returncode, line.startswith("zirofen-host delegations: ")), ("", 3, True))
                self.assertEqual(help_lines, [] if words else ["  help below it"])

    def test_a_snapshot_has_its_delegations(self):
        self.host.cgroup("/")
        self.host.cgroup("/a", owners=DELEGATED)
        self.host.accounts(passwd=PASSWD, group=GROUP)
        taken = self.host.snapshot()
        accounts = self.host.read_accounts()
        self.assertEqual(found(read_tree(tree_text(taken)), accounts), [(1000, (1000, 50), "/a")])
        self.assertEqual(found(taken.tree, accounts), [(1000, (1000, 50), "/a")])


if __name__ == "__main__":
    unittest.main()
