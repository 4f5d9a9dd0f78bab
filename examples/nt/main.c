/*
 * Guest processes over the system calls of nt.h: a parent, a child that inherits, and two whose threads make calls at one time. The
 * bodies of their events and files are freed once each, with their last handles.
 *
 *     cc -std=c11 -pthread -I out examples/nt/main.c examples/nt/nt.c examples/nt/buffers.c examples/nt/host.c out/libntns.a
 *
 * The last line is 'N passed, M failed'; the exit status is 0 where none failed.
 */
#include "nt.h"

#include <stdio.h>
#include <string.h>

#define S(status) NTNS_STATUS_##status

/* attributes, as a program for Windows gives them */
enum { OBJ_INHERIT = 0x2, OBJ_CASE_INSENSITIVE = 0x40, OBJ_OPENIF = 0x80, OBJ_KERNEL_HANDLE = 0x200 };

static int passed, failed;

static void hold(bool holds, const char *shows)
{
	passed += holds;
	failed += !holds;
	if (!holds)
		printf("nt: %s\n", shows);
}

/* A name with its attributes. */
struct named {
	OBJECT_ATTRIBUTES attributes;
	UNICODE_STRING string;
	uint16_t units[64];
};

/* Fills these; a byte is a character of Latin-1. */
static const OBJECT_ATTRIBUTES *fill(struct named *named, HANDLE root, const char *name, ULONG flags)
{
	size_t length = 0;

	memset(named, 0, sizeof *named);
	for (; name[length]; length++)
		named->units[length] = (unsigned char)name[length];
	named->string.Length = (uint16_t)(2 * length);
	named->string.MaximumLength = sizeof named->units;
	named->string.Buffer = named->units;
	named->attributes.Length = sizeof named->attributes;
	named->attributes.RootDirectory = root;
	named->attributes.ObjectName = &named->string;
	named->attributes.Attributes = flags;
	return &named->attributes;
}

/* The attributes of an object at a name, whose memory is good until the next call. */
static const OBJECT_ATTRIBUTES *at(HANDLE root, const char *name, ULONG flags)
{
	static struct named named;

	return fill(&named, root, name, flags);
}

/* Whether a string of a guest is this text. */
static bool is_text(const UNICODE_STRING *string, const char *text)
{
	size_t length = strlen(text);

	for (size_t place = 0; place < length; place++)
		if (string->Buffer[place] != (unsigned char)text[place])
			return false;
	return string->Length == 2 * length && string->Buffer[length] == 0;
}

/* Whether the object of a handle has this text as its name or its type's. */
static bool is_told(struct host *host, uint32_t process, HANDLE handle, ULONG information, const char *text)
{
	uint64_t buffer[64];
	ULONG needed, returned;
	size_t structure = information == ObjectNameInformation ? sizeof(UNICODE_STRING) : sizeof(PUBLIC_OBJECT_TYPE_INFORMATION);

	return NtQueryObject(host, process, handle, information, buffer, 0, &needed) == STATUS_INFO_LENGTH_MISMATCH && needed == structure + 2 * strlen(text) + 2 &&
	       NtQueryObject(host, process, handle, information, buffer, needed - 1, &returned) == STATUS_BUFFER_OVERFLOW && returned == needed &&
	       NtQueryObject(host, process, handle, information, buffer, needed, &returned) == S(SUCCESS) && is_text((const UNICODE_STRING *)buffer, text);
}

/* An event is made, found, and set by both processes. */
static void events(struct host *host, uint32_t parent, uint32_t child, HANDLE inherited)
{
	HANDLE event, again;
	bool was_set = true;

	hold(NtCreateEvent(host, parent, &again, at(0, "\\BaseNamedObjects\\caf\xE9", OBJ_OPENIF), false) == S(OBJECT_NAME_EXISTS) && again, "the event is there");
	hold(NtCreateEvent(host, parent, &event, at(0, "\\BaseNamedObjects\\caf\xE9", 0), false) == S(OBJECT_NAME_COLLISION) && !event, "it isn't made again");
	hold(NtSetEvent(host, child, inherited, &was_set) == S(SUCCESS) && !was_set, "the child sets the event that it inherited");
	hold(NtSetEvent(host, parent, again, &was_set) == S(SUCCESS) && was_set, "and the parent finds it set");
	hold(NtOpenEvent(host, child, &event, at(0, "\\basenamedobjects\\CAF\xE9", OBJ_CASE_INSENSITIVE)) == S(SUCCESS), "the child opens it too");
	hold(is_told(host, child, event, ObjectNameInformation, "\\BaseNamedObjects\\caf\xE9"), "its name has the case of its create");
	hold(is_told(host, child, event, ObjectTypeInformation, "Event"), "it is an event");
	hold(NtClose(host, child, event) == S(SUCCESS) && NtClose(host, parent, again) == S(SUCCESS), "both close these");
	hold(NtOpenEvent(host, parent, &event, at(0, "\\BaseNamedObjects\\None", 0)) == S(OBJECT_NAME_NOT_FOUND) && !event, "there is no other");
	hold(NtOpenEvent(host, parent, &event, at(0, "\\basenamedobjects\\caf\xE9", 0)) == S(OBJECT_PATH_NOT_FOUND) && !event, "without the flag case counts");
	hold(NtOpenEvent(host, parent, &event, at(0, "\\BaseNamedObjects\\Local\\caf\xE9", 0)) == S(SUCCESS) && NtClose(host, parent, event) == S(SUCCESS), "a session's name leads to it");
}

/* A file has a position that its duplicates and its heirs share; each open has its own. */
static void files(struct host *host, uint32_t parent, uint32_t child, HANDLE child_handle, HANDLE file)
{
	HANDLE copy, other;
	uint64_t position = 0;

	hold(NtSetFilePosition(host, child, file, 7) == S(SUCCESS), "the child moves the file that it inherited");
	hold(NtQueryFilePosition(host, parent, file, &position) == S(SUCCESS) && position == 7, "the parent's has moved");
	hold(NtDuplicateObject(host, parent, NtCurrentProcess(), file, child_handle, &copy, 0, DUPLICATE_SAME_ACCESS) == S(SUCCESS), "it is duplicated into the child");
	hold(NtSetFilePosition(host, parent, file, 8) == S(SUCCESS), "the parent moves it");
	hold(NtQueryFilePosition(host, child, copy, &position) == S(SUCCESS) && position == 8, "the duplicate has moved");
	hold(NtOpenFile(host, child, &other, at(0, "\\??\\c:\\a.txt", 0)) == S(SUCCESS), "the child opens the name anew");
	hold(NtQueryFilePosition(host, child, other, &position) == S(SUCCESS) && position == 0, "a new file is at its begin");
	uint32_t freed = host->freed;
	hold(NtClose(host, child, copy) == S(SUCCESS) && host->freed == freed, "a file with other handles stays");
	hold(NtClose(host, child, other) == S(SUCCESS) && host->freed == freed + 1, "the new file goes with its handle");
	hold(NtQueryFilePosition(host, parent, file, &position) == S(SUCCESS) && position == 8, "the other file stays as it is");
	hold(NtSetFilePosition(host, parent, 0x7770, 1) == S(INVALID_HANDLE), "no file has no position");
}

/* Files are created and opened, also below others and through the root's link. */
static void names_of_files(struct host *host, uint32_t guest)
{
	HANDLE drive, folder, file, directory;
	ULONG information;

	hold(NtOpenFile(host, guest, &file, at(0, "\\??\\C:\\dir", 0)) == S(OBJECT_NAME_NOT_FOUND) && !file, "what isn't stored isn't opened");
	hold(NtCreateFile(host, guest, &folder, at(0, "\\??\\C:\\dir", 0), FILE_CREATE, &information) == S(SUCCESS) && information == FILE_CREATED, "a folder is created");
	hold(NtCreateFile(host, guest, &file, at(folder, "b.txt", 0), FILE_OPEN_IF, &information) == S(SUCCESS) && information == FILE_CREATED, "a file is created below it");
	hold(is_told(host, guest, file, ObjectNameInformation, "\\Device\\Disk\\dir\\b.txt"), "its name begins with that of its device");
	hold(is_told(host, guest, file, ObjectTypeInformation, "File"), "it is a file");
	NtClose(host, guest, file);
	hold(NtCreateFile(host, guest, &file, at(0, "\\??\\GLOBALROOT\\Device\\Disk\\dir\\b.txt", 0), FILE_CREATE, &information) == S(OBJECT_NAME_COLLISION) && !file, "it is there, also behind the root's link");
	hold(NtOpenFile(host, guest, &file, at(folder, "\\b.txt", 0)) == S(OBJECT_PATH_SYNTAX_BAD), "a name below a file begins with no backslash");
	hold(NtOpenFile(host, guest, &file, at(folder, "", 0)) == S(SUCCESS) && is_told(host, guest, file, ObjectNameInformation, "\\Device\\Disk\\dir"), "an empty name opens the folder anew");
	NtClose(host, guest, file);
	hold(NtOpenFile(host, guest, &drive, at(0, "\\DosDevices\\Global\\C:\\", 0)) == S(SUCCESS) && is_told(host, guest, drive, ObjectNameInformation, "\\Device\\Disk\\"), "a drive has a topmost folder");
	hold(NtOpenFile(host, guest, &file, at(drive, "dir\\b.txt", 0)) == S(SUCCESS) && is_told(host, guest, file, ObjectNameInformation, "\\Device\\Disk\\dir\\b.txt"), "which leads to the file too");
	NtClose(host, guest, file);
	hold(NtOpenFile(host, guest, &file, at((HANDLE)1 << 32, "dir", 0)) == S(INVALID_HANDLE), "a root of more than 32 bits is none");
	hold(NtOpenDirectoryObject(host, guest, &directory, at(0, "\\??\\GLOBALROOT", 0)) == S(SUCCESS) && is_told(host, guest, directory, ObjectNameInformation, "\\"), "the root's link alone is the root");
	NtClose(host, guest, directory);
	NtClose(host, guest, drive);
	NtClose(host, guest, folder);
}

/* Keys are created and opened, also below others. */
static void keys(struct host *host, uint32_t guest)
{
	HANDLE registry, key, below;

	hold(NtOpenKey(host, guest, &key, at(0, "\\Registry\\Machine", 0)) == S(OBJECT_NAME_NOT_FOUND) && !key, "what isn't stored isn't opened");
	hold(NtOpenKey(host, guest, &registry, at(0, "\\Registry", 0)) == S(SUCCESS), "the registry itself is");
	hold(NtCreateKey(host, guest, &key, at(registry, "Machine", 0)) == S(SUCCESS), "a key is created below it");
	hold(NtCreateKey(host, guest, &below, at(key, "Software", 0)) == S(SUCCESS), "and one below that");
	hold(is_told(host, guest, below, ObjectNameInformation, "\\REGISTRY\\Machine\\Software"), "its name has the whole path");
	NtClose(host, guest, below);
	hold(NtOpenKey(host, guest, &below, at(registry, "Machine\\Software", 0)) == S(SUCCESS), "it is opened by both names");
	NtClose(host, guest, below);
	NtClose(host, guest, key);
	hold(NtOpenKey(host, guest, &key, at(0, "\\Registry\\Machine\\Software", 0)) == S(SUCCESS) && NtClose(host, guest, key) == S(SUCCESS), "and by its path");
	NtClose(host, guest, registry);
}

/* Handles are duplicated as the options say, also into other processes, and pseudo handles become handles. */
static void duplicates(struct host *host, uint32_t parent, uint32_t child, HANDLE child_handle)
{
	HANDLE event, moved, none, self;
	bool was_set;

	hold(NtCreateEvent(host, parent, &event, NULL, false) == S(SUCCESS), "an event without a name is made");
	hold(NtDuplicateObject(host, parent, NtCurrentProcess(), event, child_handle, &moved, 0, DUPLICATE_CLOSE_SOURCE) == S(SUCCESS), "it is moved into the child");
	hold(NtSetEvent(host, parent, event, &was_set) == S(INVALID_HANDLE) && NtSetEvent(host, child, moved, &was_set) == S(SUCCESS), "which alone has it now");
	hold(NtDuplicateObject(host, parent, child_handle, moved, 0x7770, &none, 0, DUPLICATE_CLOSE_SOURCE) == S(INVALID_HANDLE) && !none, "a process that isn't there gets none");
	hold(NtSetEvent(host, child, moved, &was_set) == S(INVALID_HANDLE), "the source is closed all the same");
	hold(NtCreateEvent(host, child, &moved, NULL, false) == S(SUCCESS), "the child makes another");
	hold(NtDuplicateObject(host, parent, child_handle, moved, 0, &none, 0, DUPLICATE_CLOSE_SOURCE) == S(SUCCESS) && !none, "which the parent closes");
	hold(NtSetEvent(host, child, moved, &was_set) == S(INVALID_HANDLE), "so that it is gone");
	hold(NtDuplicateObject(host, parent, NtCurrentProcess(), NtCurrentProcess(), NtCurrentProcess(), &self, 0, DUPLICATE_SAME_ACCESS) == S(SUCCESS), "a pseudo handle is duplicated");
	hold(is_told(host, parent, self, ObjectTypeInformation, "Process") && is_told(host, parent, NtCurrentProcess(), ObjectTypeInformation, "Process"), "both lead to a process");
	hold(is_told(host, parent, self, ObjectNameInformation, ""), "which has no name");
	hold(NtCreateEvent(host, parent, &event, NULL, false) == S(SUCCESS), "one more event is made");
	hold(NtDuplicateObject(host, parent, self, event, self, &moved, OBJ_INHERIT, 0) == S(SUCCESS), "the handle stands for the process");
	hold(NtDuplicateObject(host, parent, event, event, self, &none, 0, 0) == S(OBJECT_TYPE_MISMATCH), "and an event's doesn't");
	hold(NtDuplicateObject(host, parent, self, event, self, &none, 0, DUPLICATE_SAME_ATTRIBUTES) == STATUS_NOT_SUPPORTED, "attributes aren't copied");
	hold(NtClose(host, parent, event) == S(SUCCESS) && NtClose(host, parent, moved) == S(SUCCESS) && NtClose(host, parent, self) == S(SUCCESS), "all are closed");
	hold(NtClose(host, parent, NtCurrentProcess()) == S(SUCCESS), "to close a pseudo handle does nothing");
}

/* A process sees the drives of its device map before those of all. */
static void maps(struct host *host, uint32_t parent, uint32_t child)
{
	HANDLE directory, link, file;
	struct named target;

	fill(&target, 0, "\\Device\\Disk\\a.txt", 0);
	hold(NtCreateDirectoryObject(host, child, &directory, at(0, "\\Sessions\\1", 0)) == S(SUCCESS), "a directory is made");
	hold(NtSetDeviceMap(host, child, directory) == S(SUCCESS), "it is the child's device map");
	hold(NtCreateSymbolicLinkObject(host, child, &link, at(0, "\\??\\A:", 0), &target.string) == S(SUCCESS), "the child makes a drive");
	hold(NtOpenFile(host, parent, &file, at(0, "\\??\\A:", 0)) == S(OBJECT_NAME_NOT_FOUND), "which the parent doesn't see");
	hold(NtOpenFile(host, child, &file, at(0, "\\??\\A:", 0)) == S(SUCCESS) && NtClose(host, child, file) == S(SUCCESS), "and the child does");
	hold(NtOpenFile(host, child, &file, at(0, "\\??\\C:\\a.txt", 0)) == S(SUCCESS) && NtClose(host, child, file) == S(SUCCESS), "beside those of all");
	hold(NtOpenFile(host, child, &file, at(0, "\\??\\Global\\A:", 0)) == S(OBJECT_NAME_NOT_FOUND), "among which it isn't");
	hold(NtClose(host, child, link) == S(SUCCESS) && NtClose(host, child, directory) == S(SUCCESS), "both are closed");
}

/* A directory shows the entries of its shadow where it has none of that name. */
static void shadows(struct host *host, uint32_t guest)
{
	HANDLE shadow, directory, event, other;

	hold(NtCreateDirectoryObject(host, guest, &shadow, at(0, "\\S", 0)) == S(SUCCESS), "a directory is made");
	hold(NtCreateEvent(host, guest, &event, at(shadow, "E", 0), false) == S(SUCCESS), "an event is made in it");
	hold(NtCreateDirectoryObjectEx(host, guest, &directory, at(0, "\\D", 0), shadow) == S(SUCCESS), "it is the shadow of another");
	hold(NtOpenEvent(host, guest, &other, at(directory, "E", 0)) == S(SUCCESS) && is_told(host, guest, other, ObjectNameInformation, "\\S\\E"), "the event is found there too");
	NtClose(host, guest, other);
	hold(NtCreateEvent(host, guest, &other, at(directory, "E", 0), false) == S(SUCCESS) && is_told(host, guest, other, ObjectNameInformation, "\\D\\E"), "an event of that name is made beside it");
	NtClose(host, guest, other);
	hold(NtCreateDirectoryObjectEx(host, guest, &other, at(0, "\\F", 0), directory) == S(INVALID_PARAMETER) && !other, "what has a shadow is none");
	hold(NtCreateDirectoryObjectEx(host, guest, &other, at(0, "\\F", 0), event) == S(OBJECT_TYPE_MISMATCH) && !other, "nor is an event");
	hold(NtCreateDirectoryObjectEx(host, guest, &other, at(0, "\\F", 0), (HANDLE)1 << 32) == S(INVALID_HANDLE) && !other, "nor what has no handle");
	hold(NtClose(host, guest, shadow) == S(SUCCESS) && NtOpenEvent(host, guest, &other, at(directory, "E", 0)) == S(SUCCESS), "the shadow stays without a handle");
	hold(NtClose(host, guest, other) == S(SUCCESS) && NtClose(host, guest, event) == S(SUCCESS) && NtClose(host, guest, directory) == S(SUCCESS), "all are closed");
}

/* A directory is listed into buffers of many lengths, to its end. */
static void listings(struct host *host, uint32_t guest, bool is_single)
{
	static const char *const names[] = { "caf\xE9", "Sub", "a longer name" };
	HANDLE directory, made[3];
	uint64_t buffer[64];
	ULONG returned;

	hold(NtCreateDirectoryObject(host, guest, &directory, at(0, "\\L", OBJ_KERNEL_HANDLE)) == S(SUCCESS), "a directory is made");
	for (int name = 0; name < 3; name++)
		hold(NtCreateDirectoryObject(host, guest, &made[name], at(directory, names[name], 0)) == S(SUCCESS), "an entry is made");
	for (ULONG length = 0; length <= sizeof buffer; length += 4) {
		ULONG context = 0;
		int told = 0;
		NTSTATUS status;
		while (NTNS_SUCCEEDED(status = NtQueryDirectoryObject(host, guest, directory, buffer, length, is_single, told == 0, &context, &returned))) {
			const OBJECT_DIRECTORY_INFORMATION *entry = (const OBJECT_DIRECTORY_INFORMATION *)buffer;
			int before = told;
			for (; entry->Name.Buffer; entry++, told++)
				hold(told < 3 && is_text(&entry->Name, names[told]) && is_text(&entry->TypeName, "Directory"), "an entry is listed");
			hold(returned <= length && told > before, "at least one, and no more than fits");
			hold(is_single ? told == before + 1 && status == S(SUCCESS) : (told == 3) == (status == S(SUCCESS)), "the status says whether others are left");
		}
		hold(told == 3 ? status == S(NO_MORE_ENTRIES) : status == S(BUFFER_TOO_SMALL) && length < 160, "each is, where the room suffices");
	}
	for (int name = 0; name < 3; name++)
		NtClose(host, guest, made[name]);
	NtClose(host, guest, directory);
}

/* A thread of a guest: its process, and whether each of its calls was answered as it should be. */
struct caller {
	struct host *host;
	uint32_t process;
	bool is_well;
};

/* Makes events and opens files while the other thread does. */
static void *call_often(void *given)
{
	struct caller *caller = (struct caller *)given;
	struct named named;

	caller->is_well = true;
	for (int round = 0; round < 200; round++) {
		HANDLE event, file;
		NTSTATUS made = NtCreateEvent(caller->host, caller->process, &event, fill(&named, 0, "\\BaseNamedObjects\\shared", OBJ_OPENIF), false);
		NTSTATUS opened = NtOpenFile(caller->host, caller->process, &file, fill(&named, 0, "\\??\\C:\\a.txt", 0));
		caller->is_well &= NTNS_SUCCEEDED(made) && opened == S(SUCCESS);
		caller->is_well &= NtClose(caller->host, caller->process, event) == S(SUCCESS) && NtClose(caller->host, caller->process, file) == S(SUCCESS);
	}
	return NULL;
}

/* Two processes, a thread each, make calls at one time. */
static void threads(struct host *host)
{
	struct caller callers[2];
	pthread_t ids[2];
	HANDLE handle;

	for (int caller = 0; caller < 2; caller++) {
		callers[caller].host = host;
		hold(NtCreateUserProcess(host, 1, false, &handle, &callers[caller].process) == S(SUCCESS), "a process begins");
		hold(pthread_create(&ids[caller], NULL, call_often, &callers[caller]) == 0, "and its thread");
	}
	for (int caller = 0; caller < 2; caller++)
		hold(pthread_join(ids[caller], NULL) == 0 && callers[caller].is_well, "each of its calls is answered");
	hold(host->made == host->freed && !host->bodies, "what they had is freed, each once");
}

int main(void)
{
	struct host host;
	HANDLE event, file, parent_handle, child_handle;
	ULONG information;
	uint32_t parent, child;

	hold(host_open(&host) == S(SUCCESS), "a host is opened");
	hold(NtCreateUserProcess(&host, 1, false, &parent_handle, &parent) == S(SUCCESS), "the system begins a process");
	hold(NtCreateEvent(&host, parent, &event, at(0, "\\BaseNamedObjects\\caf\xE9", OBJ_INHERIT | OBJ_KERNEL_HANDLE), false) == S(SUCCESS), "an event is made");
	hold(NtCreateFile(&host, parent, &file, at(0, "\\??\\C:\\a.txt", OBJ_INHERIT), FILE_CREATE, &information) == S(SUCCESS), "a file is created");
	hold(NtCreateUserProcess(&host, parent, true, &child_handle, &child) == S(SUCCESS), "a child begins");
	events(&host, parent, child, event);
	files(&host, parent, child, child_handle, file);
	names_of_files(&host, parent);
	keys(&host, parent);
	duplicates(&host, parent, child, child_handle);
	maps(&host, parent, child);
	shadows(&host, parent);
	listings(&host, parent, false);
	listings(&host, parent, true);
	uint32_t freed = host.freed;
	hold(NtTerminateProcess(&host, parent, NtCurrentProcess()) == S(SUCCESS) && host.freed == freed, "what the child has stays without its parent");
	hold(NtOpenFile(&host, parent, &file, at(0, "\\??\\C:\\a.txt", 0)) == S(PROCESS_IS_TERMINATING) && !file, "a process that is gone opens nothing");
	hold(NtTerminateProcess(&host, 1, parent_handle) == S(PROCESS_IS_TERMINATING), "and ends once");
	hold(NtTerminateProcess(&host, 1, NtCurrentProcess()) == S(ACCESS_DENIED), "the system ends never");
	hold(NtTerminateProcess(&host, child, NtCurrentProcess()) == S(SUCCESS), "the child ends");
	hold(host.made == host.freed && host.freed == freed + 2 && !host.bodies, "the event and the file are freed, each once");
	threads(&host);
	host_close(&host);
	printf("%d passed, %d failed\n", passed, failed);
	return failed != 0;
}
