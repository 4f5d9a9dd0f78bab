"""Tests of the binding, over the library that NTNS_LIBRARY names or the system finds."""

import doctest
import unittest

import ntns
from ntns import Attribute, Deletion, Entry, Namespace, NtError, Opened, Row, Status, Type


class Bound(unittest.TestCase):
    """A test in a new namespace."""

    def setUp(self):
        self.namespace = Namespace()
        self.system = self.namespace.process()
        self.addCleanup(self.namespace.close)

    def refused(self, status, call, *arguments, **named):
        """Checks that a call is refused with a status."""
        with self.assertRaises(NtError) as caught:
            call(*arguments, **named)
        self.assertIs(caught.exception.status, status)
        self.assertEqual(str(caught.exception), status.name)


class Objects(Bound):
    def test_a_file_on_a_device_is_opened_by_a_drive(self):
        disk = self.system.create_object(Type.DEVICE, r"\Device\Disk", user_data=7).query()
        drive = self.system.create_link(r"\??\C:", r"\Device\Disk")
        with self.system.open(r"\??\C:\a.txt", Type.FILE) as file:
            opened = file.query()
            self.assertEqual(opened[:2], (Type.FILE, 7))
            self.assertEqual(file.file_text(), r"\a.txt")
        self.assertEqual(drive.target(), r"\Device\Disk")
        self.assertEqual(drive.path(), r"\GLOBAL??\C:")
        self.system.exit()
        self.assertEqual(list(self.namespace.deletions()), [Deletion(*opened, True), Deletion(*disk, False)])
        self.assertEqual(list(self.namespace.deletions()), [])

    def test_a_file_that_no_one_got_is_deleted_without_an_id(self):
        self.system.create_object(Type.DEVICE, r"\Device\Disk", user_data=7)
        self.refused(Status.OBJECT_TYPE_MISMATCH, self.system.open, r"\Device\Disk\a.txt", Type.EVENT)
        self.assertEqual(list(self.namespace.deletions()), [Deletion(Type.FILE, 7, 0, True)])

    def test_ids_tell_objects_apart(self):
        first, second = (self.system.create_object(Type.EVENT, user_data=1) for _ in range(2))
        self.assertNotEqual(first.query().id, second.query().id)
        self.assertEqual(first.duplicate().query(), first.query())

    def test_user_data_has_64_bits(self):
        event = self.system.create_object(Type.EVENT, user_data=2**64 - 1)
        self.assertEqual(event.query().user_data, 2**64 - 1)

    def test_numbers_out_of_range_are_refused(self):
        self.assertRaises(ValueError, self.system.create_object, Type.EVENT, user_data=2**64)
        self.assertRaises(ValueError, self.system.create_directory, attributes=2**32)
        self.assertRaises(ValueError, self.system.create_directory, attributes=-1)
        self.assertRaises(ValueError, self.namespace.process(2**32 + 1).create_directory)

    def test_openif_says_that_it_opened(self):
        made = self.system.create_directory(r"\A")
        opened = self.system.create_directory(r"\A", Attribute.OPENIF)
        self.assertEqual((made.existed, opened.existed), (False, True))
        self.assertEqual(made.query(), opened.query())

    def test_names_are_relative_to_a_root(self):
        with self.system.create_directory(r"\A") as root:
            self.system.create_object(Type.MUTANT, "m", root=root)
            self.assertEqual(self.system.open(r"\a\M", attributes=Attribute.CASE_INSENSITIVE).path(), r"\A\m")

    def test_a_directory_shows_the_entries_of_its_shadow(self):
        shadow = self.system.create_directory(r"\S")
        self.system.create_object(Type.EVENT, "E", user_data=1, root=shadow)
        directory = self.system.create_shadowed(shadow, r"\D")
        self.assertEqual(self.system.open(r"\D\E").path(), r"\S\E")
        self.system.create_object(Type.EVENT, "E", user_data=2, root=directory)
        self.assertEqual(self.system.open(r"\D\E").query().user_data, 2)
        self.assertEqual(list(self.system.create_shadowed(shadow)), [])
        self.refused(Status.INVALID_PARAMETER, self.system.create_shadowed, directory, r"\F")
        self.assertRaises(ValueError, self.system.new_process().create_shadowed, shadow)

    def test_a_link_is_opened_itself(self):
        self.system.create_link(r"\L", r"\Device")
        self.assertIs(self.system.open_link(r"\L").query().type, Type.SYMBOLIC_LINK)
        self.assertIs(self.system.open_directory(r"\L").query().type, Type.DIRECTORY)

    def test_an_object_keeps_its_name_if_it_is_permanent(self):
        event = self.system.create_object(Type.EVENT, r"\E")
        event.make_permanent()
        event.close()
        with self.system.open(r"\E") as event:
            event.make_temporary()
        self.refused(Status.OBJECT_NAME_NOT_FOUND, self.system.open, r"\E")


class TwoPhases(Bound):
    def test_an_open_that_meets_a_device_is_ended_or_cancelled(self):
        disk = self.system.create_object(Type.DEVICE, r"\Device\Disk", user_data=7)
        rest = "\\" + "x" * 300
        pending = self.system.begin_open(r"\Device\Disk" + rest, Type.FILE)
        self.assertEqual((pending.object, pending.rest), (disk.query(), rest))
        file = pending.end()
        self.assertEqual((file.query().type, file.file_text()), (Type.FILE, rest))
        self.refused(Status.INVALID_PARAMETER, pending.end)
        pending = self.system.begin_open("x", Type.EVENT, root=disk)
        self.refused(Status.OBJECT_TYPE_MISMATCH, pending.end)
        self.assertEqual(len(list(self.namespace.deletions())), 1)
        pending = self.system.begin_open("x", root=disk)
        disk.close()
        self.assertEqual(list(self.namespace.deletions()), [])
        pending.cancel()
        self.assertEqual([it.type for it in self.namespace.deletions()], [Type.DEVICE])
        self.refused(Status.INVALID_PARAMETER, pending.cancel)

    def test_an_open_that_meets_none_gives_a_handle(self):
        self.assertEqual(self.system.begin_open("\\").path(), "\\")
        self.refused(Status.OBJECT_NAME_NOT_FOUND, self.system.begin_open, r"\No")


class Processes(Bound):
    def test_a_child_inherits(self):
        handle = self.system.create_object(Type.EVENT, user_data=3, attributes=Attribute.INHERIT)
        kept = self.system.create_object(Type.EVENT)
        child = self.system.new_process(inherit=True)
        self.assertEqual(child.handle(handle.value).query().user_data, 3)
        self.refused(Status.INVALID_HANDLE, child.handle(kept.value).close)
        child.exit()
        self.refused(Status.PROCESS_GONE, child.create_directory)

    def test_a_handle_is_duplicated_into_another_process(self):
        child = self.system.new_process()
        copy = self.system.create_object(Type.EVENT, user_data=5).duplicate(to=child)
        self.assertEqual((copy.process.number, copy.query().user_data), (child.number, 5))

    def test_an_inherit_flag_is_set(self):
        handle = self.system.create_object(Type.EVENT, user_data=3)
        other = self.system.create_object(Type.MUTANT, attributes=Attribute.EXCLUSIVE)
        handle.set_inherit(True)
        self.assertTrue(handle.attributes().inherit)
        self.assertEqual([it.value for it in self.system.handles()], [other.value, handle.value])
        child = self.system.new_process(inherit=True)
        self.assertEqual(child.handle(handle.value).query().user_data, 3)
        child.handle(handle.value).set_inherit(False)
        self.assertEqual(list(child.new_process(inherit=True).handles()), [])
        self.refused(Status.INVALID_PARAMETER, other.set_inherit, True)
        self.refused(Status.INVALID_HANDLE, child.handle(other.value).set_inherit, True)

    def test_handles_are_listed_in_order_of_opening(self):
        directory = self.system.create_directory(r"\D", Attribute.PERMANENT | Attribute.INHERIT)
        event = self.system.create_object(Type.EVENT, user_data=5, attributes=Attribute.EXCLUSIVE)
        second = directory.duplicate()
        opened = list(self.system.handles())
        self.assertEqual([it.value for it in opened], [directory.value, event.value, second.value])
        self.assertEqual(opened[0], Opened(directory.value, Type.DIRECTORY, 0, directory.query().id, True, True, False, 2))
        self.assertEqual(opened[1], event.attributes())
        self.assertEqual(event.attributes(), Opened(event.value, Type.EVENT, 5, event.query().id, False, False, True, 1))
        listing = self.system.handles()
        self.assertEqual(next(listing).value, directory.value)
        directory.close()
        self.assertEqual([it.value for it in listing], [event.value, second.value])
        self.refused(Status.INVALID_HANDLE, directory.attributes)

    def test_processes_are_listed_by_their_numbers(self):
        child = self.system.new_process()
        grandchild = child.new_process()
        child.exit()
        self.assertEqual([it.number for it in self.namespace.processes()], [1, grandchild.number])
        self.assertEqual(list(child.handles()), [])

    def test_a_device_map_comes_first(self):
        local = self.system.create_directory(r"\Sessions\1")
        child = self.system.new_process()
        local.duplicate(to=child).set_device_map()
        child.create_link(r"\??\C:", r"\Device").make_permanent()
        self.assertIs(child.open(r"\??\C:").query().type, Type.DIRECTORY)
        self.refused(Status.OBJECT_NAME_NOT_FOUND, self.system.open, r"\??\C:")


class Texts(Bound):
    def test_a_directory_lists_its_entries_in_order(self):
        with self.system.create_directory(r"\A") as directory:
            names = [f"e{number:03}" for number in range(300)] + ["x" * 4000]
            for name in names:
                self.system.create_object(Type.EVENT, name, root=directory)
            self.assertEqual(list(directory), [Entry(name, Type.EVENT) for name in names])

    def test_rows_have_contexts_to_go_on_from(self):
        with self.system.create_directory(r"\A") as directory:
            names = [f"e{number:03}" for number in range(200)] + ["x" * 32_764]
            events = [self.system.create_object(Type.EVENT, name, root=directory) for name in names]
            rows = list(directory.rows())
            self.assertEqual([Entry(*row[:2]) for row in rows], list(directory))
            self.assertEqual(list(directory.rows(rows[99].context)), rows[100:])
            for event in events[:150]:
                event.close()
            self.assertEqual(next(directory.rows(rows[99].context)), Row("e150", Type.EVENT, rows[150].context))
            self.assertEqual(list(directory.rows(rows[-1].context)), [])
            self.assertRaises(ValueError, next, directory.rows(2**64))
            self.refused(Status.OBJECT_TYPE_MISMATCH, next, events[-1].rows())

    def test_a_long_target_is_read_whole(self):
        target = "\\" + "t" * 32_766
        self.assertEqual(self.system.create_link(r"\L", target).target(), target)

    def test_names_are_bytes_too(self):
        self.assertEqual(self.system.create_directory(b"\\A").path(), r"\A")

    def test_a_nul_is_part_of_a_name(self):
        self.refused(Status.OBJECT_NAME_INVALID, self.system.create_directory, "\\A\0B")

    def test_what_is_not_ascii_is_refused(self):
        self.refused(Status.OBJECT_NAME_INVALID, self.system.create_directory, "\\\u00c4")


class Ends(Bound):
    def test_a_closed_namespace_refuses_and_closes_again(self):
        self.namespace.close()
        self.namespace.close()
        self.refused(Status.INVALID_PARAMETER, self.system.create_directory, r"\A")

    def test_a_context_closes_its_handle(self):
        with self.system.create_directory(r"\A") as handle:
            pass
        self.refused(Status.INVALID_HANDLE, handle.close)

    def test_namespaces_are_apart(self):
        self.system.create_directory(r"\A")
        with Namespace() as other:
            self.refused(Status.OBJECT_NAME_NOT_FOUND, other.process().open, r"\A")

    def test_a_copy_goes_its_own_way(self):
        device = self.system.create_object(Type.DEVICE, r"\D", user_data=7, attributes=Attribute.PERMANENT)
        event = self.system.create_object(Type.EVENT, user_data=8)
        event.close()
        pending = self.system.begin_open(r"\D\x")
        with self.namespace.copy() as copy:
            system = copy.process()
            self.assertEqual(system.handle(device.value).query(), device.query())
            self.assertEqual([it.user_data for it in copy.deletions()], [8])
            self.assertEqual(ntns.Pending(system, pending.ticket, pending.object, pending.rest).end().file_text(), r"\x")
            system.create_directory(r"\A")
            self.refused(Status.OBJECT_NAME_NOT_FOUND, self.system.open, r"\A")
        self.assertEqual([it.user_data for it in self.namespace.deletions()], [8])
        pending.cancel()
        self.namespace.close()
        self.refused(Status.INVALID_PARAMETER, self.namespace.copy)

    def test_handles_of_others_are_no_roots(self):
        with Namespace() as other:
            root = other.process().create_directory(r"\A")
            self.assertRaises(ValueError, self.system.create_directory, "B", root=root)
            self.assertRaises(ValueError, self.system.create_directory().duplicate, to=other.process())
        root = self.system.create_directory()
        self.assertRaises(ValueError, self.system.new_process().create_directory, "B", root=root)


class Constants(unittest.TestCase):
    def test_statuses_have_the_names_of_the_library(self):
        text = ntns._LIBRARY.ntns_status_text
        self.assertEqual([text(status) for status in Status], [status.name.encode() for status in Status])

    def test_types_are_those_of_the_library(self):
        name = ntns._LIBRARY.ntns_type_name
        known = [number for number in range(1, 100) if name(number)]
        self.assertEqual(known, [kind for kind in Type if kind is not Type.ANY])


def load_tests(_, tests, __):
    """The tests here, and the example of the module's document."""
    tests.addTests(doctest.DocTestSuite(ntns))
    return tests


if __name__ == "__main__":
    unittest.main()
