"""Tests of names of containers and pods: which files tell them, and whose these have to be."""
import json
import os
import shutil
import tempfile
import unittest
from dataclasses import replace
from unittest import mock

import report_schema
from check_test import HostTest, owned
from page_reader import PageReader
from shown import lines_of, made
from zirofen_host.collect import bounded
from zirofen_host.collect.containers import known, scopes
from zirofen_host.collect.model import Cgroup, Entry, Scope
from zirofen_host.judge import check
from zirofen_host.profile import path_of, text_of
from zirofen_host.show import page
from zirofen_host.show.tree_view import Drawing, draw

ID = "4fb08751" + 56 * "a"
OTHER = "5fb08751" + 56 * "b"
POD_UID = "12345678-1234-1234-1234-123456789abc"
SLICE = f"kubepods-burstable-pod{POD_UID.replace('-', '_')}.slice"
BUNDLE = {"annotations": {"io.kubernetes.cri.sandbox-namespace": "shop", "io.kubernetes.cri.sandbox-name": "web-0",
                          "io.kubernetes.cri.container-name": "nginx"}}
STORED = {"annotations": {"io.kubernetes.pod.namespace": "shop", "io.kubernetes.pod.name": "web-1", "io.kubernetes.container.name": "app"}}
LIST = [{"id": OTHER, "names": ["other"]}, {"id": ID, "names": ["web"]}]
HOSTS = ("# Kubernetes-managed hosts file.\n127.0.0.1\tlocalhost\nfe00::0\tip6-localnet\n10.0.0.7\tweb-0\n\n"
         "# Entries added by HostAliases.\n10.0.0.8\tdb\n")
TASKS = "run/containerd/io.containerd.runtime.v2.task"
STORAGE = "var/lib/containers/storage/overlay-containers/containers.json"
DOCKER = f"var/lib/docker/containers/{ID}/config.v2.json"


def cgroups_of(*paths, owners=()):
    """Cgroups at these paths and above them, root's but for those that others own."""
    places = {"/"}
    for path in paths:
        while path and path != "/":
            places.add(path)
            path = path.rpartition("/")[0]
    owners = dict(owners)
    return {path_of(each): Cgroup(owners.get(each, Entry(0, 0, 0o755)), {}, {}, {}, (), (), "domain", {}, ()) for each in places}


@unittest.skipIf(os.geteuid(), "files are root's only where root makes them")
class NamesTest(unittest.TestCase):
    """Names in the files that engines leave."""

    def setUp(self):
        folder = tempfile.TemporaryDirectory()
        self.addCleanup(folder.cleanup)
        self.top = folder.name

    def write(self, file, value):
        place = f"{self.top}/{file}"
        os.makedirs(os.path.dirname(place), exist_ok=True)
        with open(place, "w", encoding="utf-8") as out:
            out.write(value if isinstance(value, str) else json.dumps(value))
        os.chmod(place, 0o600)
        return place

    def names(self, *paths, **more):
        return {text_of(each.path): (each.engine, each.name or each.id) for each in scopes(cgroups_of(*paths, **more), self.top)}

    def test_each_engine(self):
        self.write(DOCKER, {"Name": "/shop"})
        self.write(STORAGE, LIST)
        self.write(f"{TASKS}/k8s.io/{ID}/config.json", BUNDLE)
        self.write(f"{TASKS}/default/{OTHER}/config.json", {"annotations": {"nerdctl/name": "nerd"}})
        self.write(f"run/containers/storage/overlay-containers/{OTHER}/userdata/config.json", STORED)
        self.write(f"run/crun/{ID}/config.json", STORED)
        self.write(f"var/lib/kubelet/pods/{POD_UID}/etc-hosts", HOSTS)
        for path, expected in (
                (f"/system.slice/docker-{ID}.scope", ("docker", "shop")), (f"/docker/{ID}", ("docker", "shop")),
                (f"/machine.slice/libpod-{OTHER}.scope", ("podman", "other")),
                (f"/k.slice/cri-containerd-{ID}.scope", ("containerd", "shop/web-0/nginx")),
                (f"/nerdctl-{OTHER}.scope", ("containerd", "nerd")), (f"/k.slice/crio-{OTHER}.scope", ("cri-o", "shop/web-1/app")),
                (f"/k.slice/crio-{ID}.scope", ("cri-o", "shop/web-1/app")),
                (f"/kubepods/pod{POD_UID}/{ID}", ("containerd", "shop/web-0/nginx")), (f"/kubepods/pod{POD_UID}", ("pod", "web-0")),
                (f"/kubepods.slice/{SLICE}", ("pod", "web-0"))):
            with self.subTest(path):
                self.assertEqual(self.names(path)[path], expected)

    def test_pods_of_podman(self):
        """Its database has them in one of two kinds, or in what isn't yet in its file; what stands around a row may be any bytes."""
        row = f'\0\x17shop{{"id":"{ID}","name":"shop","labels":{{}}\0'
        slices = f"/machine.slice/machine-libpod_pod_{ID}.slice", f"/a.slice/a-b.slice/a-b-libpod_pod_{ID}.slice", f"/libpod_parent/{ID}"
        for file in ("db.sql", "db.sql-wal", "libpod/bolt_state.db"):
            place = self.write(f"var/lib/containers/storage/{file}", "")
            for text, name in ((row, "shop"), ("", ID[:12]), (row.replace(ID, OTHER), ID[:12]), (row.replace('shop"', '"'), ID[:12]),
                               (row.replace("shop", "../a\x1b"), ID[:12]), (row.replace('shop"', f'{"x" * 500}"'), "x" * 96)):
                with open(place, "wb") as out:
                    out.write(b"\xff\xfe" + text.encode("ascii") + b"\x80")
                for path in slices:
                    self.assertEqual(self.names(path)[path], ("pod", name), (file, text))
            os.remove(place)
        self.write("var/lib/containers/storage/db.sql", row)
        self.write(STORAGE, LIST)
        member = f"{slices[0]}/libpod-{OTHER}.scope"
        self.assertEqual(self.names(member), {slices[0]: ("pod", "shop"), member: ("podman", "other")})
        os.chmod(f"{self.top}/var/lib/containers/storage", 0o777)
        self.assertEqual(self.names(slices[0])[slices[0]], ("pod", ID[:12]))

    def test_what_is_none(self):
        for name in ("docker.service", f"libpod-conmon-{ID}.scope", f"docker-{ID}.service", ID, f"docker-{ID[:4]}.scope",
                     f"docker-{ID.upper()}.scope", f"docker-../{ID}.scope", f"docker-{ID}.scope.d", f"machine-libpod_pod_{ID[1:]}.slice",
                     f"machine-libpod_pod_{ID}.scope", f"libpod_pod_{ID}"):
            self.assertIsNone(known(path_of(f"/system.slice/{name}")), name)

    def test_without_a_file_it_has_its_short_id(self):
        self.assertEqual(self.names(f"/docker-{ID}.scope"), {f"/docker-{ID}.scope": ("docker", ID[:12])})

    def test_files_that_are_none(self):
        for text in ("", "{", "[]", "1", '{"Name": ""}', "{}", "[" * 100000, "\0"):
            with self.subTest(text[:20]):
                self.write(DOCKER, text)
                self.assertEqual(self.names(f"/docker-{ID}.scope"), {f"/docker-{ID}.scope": ("docker", ID[:12])})
        for value in (LIST[:1], [{}], [{"id": 1}], {"id": ID}, [{"id": ID, "names": []}]):
            self.write(STORAGE, value)
            self.assertEqual(self.names(f"/libpod-{ID}.scope"), {f"/libpod-{ID}.scope": ("podman", ID[:12])})
        for text in ("", "# Kubernetes-managed hosts file (host network).\n10.0.0.1 node\n", "# x\n10.0.0.1\n"):
            self.write(f"var/lib/kubelet/pods/{POD_UID}/etc-hosts", text)
            self.assertEqual(self.names(f"/pod{POD_UID}"), {f"/pod{POD_UID}": ("pod", POD_UID[:12])})

    def spoiled(self, spoil):
        """The name behind something that spoils the way to it."""
        shutil.rmtree(f"{self.top}/var", ignore_errors=True)
        place = self.write(DOCKER, {"Name": "/shop"})
        spoil(place, os.path.dirname(place))
        return self.names(f"/docker-{ID}.scope")[f"/docker-{ID}.scope"][1]

    def test_only_where_all_on_the_way_is_roots(self):
        above = f"{self.top}/var/lib"

        def linked(place, folder):
            os.rename(folder, f"{folder}.d")
            os.symlink(f"{folder}.d", folder)

        def file_linked(place, folder):
            os.rename(place, f"{place}.d")
            os.symlink(f"{place}.d", place)

        def pipe(place, folder):
            os.remove(place)
            os.mkfifo(place)
        self.assertEqual(self.spoiled(lambda *_: None), "shop")
        for spoil in (linked, file_linked, pipe, lambda place, _: os.chown(place, 1000, 0), lambda place, _: os.chmod(place, 0o666),
                      lambda _, folder: os.chown(folder, 1000, 0), lambda _, folder: os.chmod(folder, 0o775),
                      lambda *_: os.chmod(above, 0o777), lambda *_: os.chmod(above, 0o1777), lambda *_: os.chown(above, 1000, 0)):
            self.assertEqual(self.spoiled(spoil), ID[:12])

    def test_of_rootless_ones_nothing_is_opened(self):
        self.write(STORAGE, LIST)
        manager = "/user.slice/user-1000.slice/user@1000.service"
        path = f"{manager}/user.slice/libpod-{ID}.scope"
        with mock.patch.object(bounded, "read_roots") as read:
            found = list(scopes(cgroups_of(path, owners=[(manager, Entry(1000, 1000, 0o755))]), self.top))
            others = list(scopes(cgroups_of(f"/a/libpod-{ID}.scope", owners=[("/a", Entry(0, 0, 0o777))]), self.top))
        self.assertEqual((found, read.called), ([Scope(path_of(path), "podman", ID[:12], None, 1000)], False))
        self.assertEqual(others[0].holder, -1)

    def test_one_that_was_handed_over_by_root_has_its_name(self):
        """With a user namespace of its own a container's cgroup is its user's, and what is above it is root's."""
        self.write(STORAGE, LIST)
        path = f"/machine.slice/libpod-{ID}.scope"
        self.assertEqual(self.names(path, owners=[(path, Entry(165536, 165536, 0o755))]), {path: ("podman", "web")})

    def test_a_list_is_read_once_and_all_within_a_budget(self):
        self.write(STORAGE, LIST)
        read = []
        read_roots = bounded.read_roots
        with mock.patch.object(bounded, "read_roots", side_effect=lambda place, *more: read.append(place) or read_roots(place, *more)):
            self.names(f"/libpod-{ID}.scope", f"/libpod-{OTHER}.scope")
        self.assertEqual(read.count(f"/{STORAGE}"), 1)
        with mock.patch.object(bounded, "NAME_FILES", 1):
            self.assertEqual(self.names(f"/libpod-{ID}.scope"), {f"/libpod-{ID}.scope": ("podman", ID[:12])})
        with mock.patch.object(bounded, "NAME_FILE", 10):
            self.assertEqual(self.names(f"/libpod-{ID}.scope"), {f"/libpod-{ID}.scope": ("podman", ID[:12])})

    def test_a_long_name_is_cut(self):
        self.write(DOCKER, {"Name": "/" + 1000 * "x"})
        self.assertEqual(self.names(f"/docker-{ID}.scope"), {f"/docker-{ID}.scope": ("docker", 96 * "x")})


class ToldTest(HostTest):
    """Names in lines, a tree and a page."""

    ODD = "x<script>\x1b[31m\u202e"

    def whole(self, *found):
        with self.host.owned():
            snapshot = replace(self.host.snapshot(), scopes=found)
        return check.report(snapshot, self.options(), True)

    def setUp(self):
        super().setUp()
        self.host.cgroup("/s.scope")
        self.host.cgroup("/s.scope/container", owners=owned(1000))

    def test_tables_have_names_of_users_and_containers(self):
        report = self.whole(Scope(path_of("/s.scope"), "podman", "4fb087512345", "web", None))
        value = self.value_of(report)
        self.assertEqual(report_schema.faults_of(value), [])
        row = next(line for line in lines_of(value) if "/s.scope/container" in line)
        self.assertEqual(row.split("  "), ["alice(1000)", "1000", "contained", "/s.scope/container [podman:web]"])
        self.assertEqual(value["subtrees"][0]["answers"][0]["names"], ["alice(1000)"])
        self.assertEqual(value["subtrees"][0]["answers"][0]["who"], "1000")
        self.assertIn("podman:web", "\n".join(draw(report, Drawing(is_ascii=True))))
        self.assertIn("/s.scope/container [podman:web]", PageReader(page.page([report])).text())

    def test_somebody_without_a_name_is_a_number(self):
        self.host.cgroup("/s.scope/container", owners=owned(4000))
        value = self.value_of(self.whole())
        self.assertNotIn("names", value["subtrees"][0]["answers"][0])
        self.assertTrue(any(line.startswith("4000 ") for line in lines_of(value)))

    def test_rootless_ones_have_their_id_and_their_holder(self):
        for holder, told in ((1000, "alice(1000)"), (4000, "uid 4000"), (-1, "somebody")):
            report = self.whole(Scope(path_of("/s.scope"), "podman", "4fb087512345", None, holder))
            self.assertTrue(any(line.endswith(f"[podman:4fb087512345 of {told}]") for line in lines_of(self.value_of(report))), told)

    def test_names_harm_nobody(self):
        report = self.whole(Scope(path_of("/s.scope"), "docker", "4fb087512345", self.ODD, None))
        reader = PageReader(page.page([report]))
        self.assertEqual(reader.faults, [])
        for line in (*lines_of(self.value_of(report)), *draw(report, Drawing(is_ascii=True))):
            self.assertFalse("\x1b" in line or "\u202e" in line, line)

    def test_a_report_of_before_has_none(self):
        value = self.value_of(self.whole())
        self.assertEqual(("scopes" in value, made(value).scopes_by_path), (False, {}))


if __name__ == "__main__":
    unittest.main()
