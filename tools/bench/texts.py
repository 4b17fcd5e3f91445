"""The parts of a tree text, for the trees of tools/bench/run."""


def head(controllers, number=1):
    return "format = %d\ncontrollers = [%s]\n\n" % (number, ", ".join('"%s"' % c for c in controllers))


def cgroup(path, more=""):
    return '[[cgroup]]\npath = "%s"\n%s\n' % (path, more)


def process(pid, at):
    return '[[process]]\npid = %d\nuid = 1000\nat = "%s"\n\n' % (pid, at)


def delegated(uid):
    return ('dir = { uid = %d }\n[cgroup.files]\n"cgroup.procs" = { uid = %d }\n'
            '"cgroup.subtree_control" = { uid = %d }\n' % (uid, uid, uid))
