//! Calls of a namespace, each against what the library answers.

use ntns::{Attribute, Begun, Deletion, Entry, Namespace, Object, Opened, Row, Status, Type};

#[test]
fn a_file_on_a_device_is_opened_by_a_drive_and_deleted_with_its_process() -> Result<(), Status> {
    let namespace = Namespace::open()?;
    let system = namespace.process(1);
    let disk = system.object(Type::DEVICE, 7).create(r"\Device\Disk")?;
    let drive = system.link(r"\Device\Disk").create(r"\??\C:")?;
    let file = system.open(Type::FILE, r"\??\C:\a.txt")?;
    assert_eq!((file.query()?.kind, file.query()?.user_data), (Type::FILE, 7));
    assert_eq!((drive.target()?, drive.path()?), (r"\Device\Disk".into(), r"\GLOBAL??\C:".into()));
    assert_eq!(disk.file_text(), Err(Status::OBJECT_TYPE_MISMATCH));
    let (file_id, disk_id) = (file.query()?.id, disk.query()?.id);
    system.exit()?;
    let deleted: Vec<_> = namespace.deletions().collect();
    let deletion = |kind, id, parsed| Deletion { kind, user_data: 7, id, parsed };
    assert_eq!(deleted, [deletion(Type::FILE, file_id, true), deletion(Type::DEVICE, disk_id, false)]);
    assert_eq!(drive.close(), Err(Status::PROCESS_GONE));
    Ok(())
}

#[test]
fn a_file_that_no_one_got_is_deleted_without_an_id() -> Result<(), Status> {
    let namespace = Namespace::open()?;
    let system = namespace.process(1);
    let _disk = system.object(Type::DEVICE, 7).create(r"\Device\Disk")?;
    assert_eq!(system.open(Type::EVENT, r"\Device\Disk\a.txt").unwrap_err(), Status::OBJECT_TYPE_MISMATCH);
    assert_eq!(namespace.deletions().collect::<Vec<_>>(), [Deletion { kind: Type::FILE, user_data: 7, id: 0, parsed: true }]);
    Ok(())
}

#[test]
fn a_handle_closes_when_it_is_dropped_and_not_when_its_value_is_kept() -> Result<(), Status> {
    let namespace = Namespace::open()?;
    let system = namespace.process(1);
    drop(system.object(Type::EVENT, 1).create(r"\E")?);
    assert_eq!(system.open(Type::ANY, r"\E").unwrap_err(), Status::OBJECT_NAME_NOT_FOUND);
    let value = system.object(Type::EVENT, 2).create(r"\E")?.into_value();
    assert_eq!(system.adopt(value).query()?.user_data, 2);
    Ok(())
}

#[test]
fn a_directory_shows_the_entries_of_its_shadow() -> Result<(), Status> {
    let namespace = Namespace::open()?;
    let system = namespace.process(1);
    let shadow = system.directory().create(r"\S")?;
    let _event = system.object(Type::EVENT, 1).root(&shadow).create("E")?;
    let directory = system.shadowed(&shadow).create(r"\D")?;
    assert_eq!(system.open(Type::EVENT, r"\D\E")?.path()?, r"\S\E");
    let _own = system.object(Type::EVENT, 2).root(&directory).create("E")?;
    assert_eq!(system.open(Type::EVENT, r"\D\E")?.query()?.user_data, 2);
    assert_eq!(system.shadowed(&shadow).create_unnamed()?.entries().count(), 0);
    assert_eq!(system.shadowed(&directory).create(r"\F").unwrap_err(), Status::INVALID_PARAMETER);
    Ok(())
}

#[test]
fn a_directory_lists_its_entries_in_order() -> Result<(), Status> {
    let namespace = Namespace::open()?;
    let system = namespace.process(1);
    let directory = system.directory().create(r"\A")?;
    let names: Vec<_> = (0..300).map(|number| format!("e{number:03}")).chain(["x".repeat(4000)]).collect();
    let mut events = Vec::new();
    for name in &names {
        events.push(system.object(Type::EVENT, 0).root(&directory).create(name)?);
    }
    let listed: Vec<_> = directory.entries().collect::<Result<_, _>>()?;
    let wanted: Vec<_> = names.into_iter().map(|name| Entry { name, kind: Type::EVENT }).collect();
    assert_eq!(listed, wanted);
    assert_eq!(events[0].entries().collect::<Vec<_>>(), [Err(Status::OBJECT_TYPE_MISMATCH)]);
    Ok(())
}

#[test]
fn rows_have_contexts_to_go_on_from() -> Result<(), Status> {
    let namespace = Namespace::open()?;
    let system = namespace.process(1);
    let directory = system.directory().create(r"\A")?;
    let names: Vec<_> = (0..200).map(|number| format!("e{number:03}")).chain(["x".repeat(32_764)]).collect();
    let mut events = names.iter().map(|name| system.object(Type::EVENT, 0).root(&directory).create(name)).collect::<Result<Vec<_>, _>>()?;
    let rows: Vec<_> = directory.rows(0).collect::<Result<_, _>>()?;
    let entries: Vec<_> = rows.iter().map(|row| Entry { name: row.name.clone(), kind: row.kind }).collect();
    assert_eq!(entries, directory.entries().collect::<Result<Vec<_>, _>>()?);
    assert_eq!(directory.rows(rows[99].context).collect::<Result<Vec<_>, _>>()?, rows[100..]);
    drop(events.drain(..150));
    assert_eq!(directory.rows(rows[99].context).next(), Some(Ok(Row { name: "e150".into(), kind: Type::EVENT, context: rows[150].context })));
    assert_eq!(directory.rows(rows[200].context).next(), None);
    assert_eq!(events[0].rows(0).collect::<Vec<_>>(), [Err(Status::OBJECT_TYPE_MISMATCH)]);
    Ok(())
}

#[test]
fn a_child_inherits_and_a_device_map_comes_first() -> Result<(), Status> {
    let namespace = Namespace::open()?;
    let system = namespace.process(1);
    let event = system.object(Type::EVENT, 3).attributes(Attribute::INHERIT).create_unnamed()?;
    let local = system.directory().create(r"\Sessions\1")?;
    let child = system.new_process(true)?;
    assert_eq!(child.adopt(event.value()).query()?.user_data, 3);
    local.duplicate(child, false)?.set_device_map()?;
    child.link(r"\Device").create(r"\??\C:")?.make_permanent()?;
    assert_eq!(child.open(Type::DIRECTORY, r"\??\C:")?.path()?, r"\Device");
    assert_eq!(system.open(Type::DIRECTORY, r"\??\C:").unwrap_err(), Status::OBJECT_NAME_NOT_FOUND);
    Ok(())
}

#[test]
fn an_inherit_flag_is_set() -> Result<(), Status> {
    let namespace = Namespace::open()?;
    let system = namespace.process(1);
    let event = system.object(Type::EVENT, 3).create_unnamed()?;
    let mutant = system.object(Type::MUTANT, 4).attributes(Attribute::EXCLUSIVE).create_unnamed()?;
    event.set_inherit(true)?;
    assert!(event.attributes()?.inherit);
    assert_eq!(system.handles().map(|opened| opened.value).collect::<Vec<_>>(), [mutant.value(), event.value()]);
    let child = system.new_process(true)?;
    let inherited = child.adopt(event.value());
    assert_eq!(inherited.query()?.user_data, 3);
    inherited.set_inherit(false)?;
    assert_eq!(child.new_process(true)?.handles().count(), 0);
    assert_eq!(mutant.set_inherit(true).unwrap_err(), Status::INVALID_PARAMETER);
    Ok(())
}

#[test]
fn handles_are_listed_in_order_of_opening() -> Result<(), Status> {
    let namespace = Namespace::open()?;
    let system = namespace.process(1);
    let directory = system.directory().attributes(Attribute::PERMANENT | Attribute::INHERIT).create(r"\D")?;
    let event = system.object(Type::EVENT, 5).attributes(Attribute::EXCLUSIVE).create_unnamed()?;
    let second = directory.duplicate(system, false)?;
    let object = Object { kind: Type::DIRECTORY, user_data: 0, id: directory.query()?.id };
    let first = Opened { value: directory.value(), object, inherit: true, permanent: true, exclusive: false, handles: 2 };
    assert_eq!(system.handles().collect::<Vec<_>>(), [first, event.attributes()?, second.attributes()?]);
    assert!(event.attributes()?.exclusive);
    let mut listing = system.handles();
    assert_eq!(listing.next(), Some(first));
    directory.close()?;
    assert_eq!(listing.map(|opened| opened.value).collect::<Vec<_>>(), [event.value(), second.value()]);
    Ok(())
}

#[test]
fn processes_are_listed_by_their_numbers() -> Result<(), Status> {
    let namespace = Namespace::open()?;
    let child = namespace.process(1).new_process(false)?;
    let grandchild = child.new_process(false)?;
    child.exit()?;
    let numbers: Vec<_> = namespace.processes().map(|process| process.number()).collect();
    assert_eq!(numbers, [1, grandchild.number()]);
    assert_eq!(child.handles().count(), 0);
    Ok(())
}

#[test]
fn attributes_are_joined() -> Result<(), Status> {
    let namespace = Namespace::open()?;
    let system = namespace.process(1);
    let made = system.directory().create(r"\A")?;
    let opened = system.directory().attributes(Attribute::OPENIF | Attribute::CASE_INSENSITIVE).create(r"\a")?;
    assert_eq!(made.query()?, opened.query()?);
    Ok(())
}

#[test]
fn names_outside_the_profile_are_refused() -> Result<(), Status> {
    let namespace = Namespace::open()?;
    for name in ["\\A\0B", "\\\u{c4}"] {
        assert_eq!(namespace.process(1).directory().create(name).unwrap_err(), Status::OBJECT_NAME_INVALID);
    }
    Ok(())
}

#[test]
fn statuses_and_types_have_the_names_of_the_library() {
    assert_eq!(Status::OBJECT_NAME_NOT_FOUND.to_string(), "OBJECT_NAME_NOT_FOUND");
    assert_eq!((Status(1).name(), Status(1).to_string()), (None, "0x00000001".into()));
    assert_eq!((Type::ALPC_PORT.name(), Type(99).name()), (Some("ALPC Port"), None));
}

#[test]
fn a_namespace_may_go_to_another_thread() -> Result<(), Status> {
    let namespace = Namespace::open()?;
    let opened = std::thread::spawn(move || namespace.process(1).open(Type::DIRECTORY, r"\Device").map(|handle| handle.value())).join();
    assert_eq!(opened.unwrap(), Ok(4));
    Ok(())
}

#[test]
fn a_copy_goes_its_own_way() -> Result<(), Status> {
    let namespace = Namespace::open()?;
    let system = namespace.process(1);
    let disk = system.object(Type::DEVICE, 7).create(r"\Device\Disk")?;
    system.object(Type::EVENT, 8).create_unnamed()?.close()?;
    let copy = namespace.copy()?;
    let copied = copy.process(1).adopt(disk.value());
    assert_eq!((copied.query()?, copied.path()?), (disk.query()?, disk.path()?));
    copied.close()?;
    assert_eq!(copy.deletions().map(|deletion| deletion.user_data).collect::<Vec<_>>(), [8, 7]);
    assert_eq!(namespace.deletions().map(|deletion| deletion.user_data).collect::<Vec<_>>(), [8]);
    assert_eq!(disk.path()?, r"\Device\Disk");
    drop(namespace.copy()?);
    assert_eq!(copy.process(1).open(Type::DEVICE, r"\Device\Disk").unwrap_err(), Status::OBJECT_NAME_NOT_FOUND);
    Ok(())
}

#[test]
#[should_panic(expected = "another process")]
fn a_handle_of_another_process_is_no_root() {
    let namespace = Namespace::open().unwrap();
    let system = namespace.process(1);
    let root = system.directory().create_unnamed().unwrap();
    let _ = system.new_process(false).unwrap().directory().root(&root);
}

#[test]
#[should_panic(expected = "another namespace")]
fn a_handle_is_duplicated_within_its_namespace() {
    let (one, other) = (Namespace::open().unwrap(), Namespace::open().unwrap());
    let _ = one.process(1).directory().create_unnamed().unwrap().duplicate(other.process(1), false);
}

#[test]
fn an_open_that_meets_a_device_is_ended_or_cancelled() -> Result<(), Status> {
    let namespace = Namespace::open()?;
    let system = namespace.process(1);
    let disk = system.object(Type::DEVICE, 7).create(r"\Device\Disk")?;
    let name = format!(r"\Device\Disk\{}", "x".repeat(300));
    let Begun::Pending(pending) = system.begin_open(Type::FILE, &name, Attribute::default(), None)? else { panic!("it is opened") };
    assert_eq!((pending.object(), pending.rest()), (disk.query()?, &name[12..]));
    let file = pending.end()?;
    assert_eq!((file.query()?.kind, file.file_text()?), (Type::FILE, name[12..].into()));
    let Begun::Pending(pending) = system.begin_open(Type::EVENT, "x", Attribute::default(), Some(&disk))? else { panic!("it is opened") };
    assert_eq!(pending.end().unwrap_err(), Status::OBJECT_TYPE_MISMATCH);
    assert_eq!(namespace.deletions().count(), 1);
    let pending = system.begin_open(Type::ANY, "x", Attribute::default(), Some(&disk))?;
    drop(disk);
    assert_eq!(namespace.deletions().count(), 0);
    drop(pending);
    assert_eq!(namespace.deletions().map(|deletion| deletion.kind).collect::<Vec<_>>(), [Type::DEVICE]);
    let Begun::Opened(root) = system.begin_open(Type::ANY, r"\", Attribute::default(), None)? else { panic!("it is pending") };
    assert_eq!(root.path()?, r"\");
    Ok(())
}
