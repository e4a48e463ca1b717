"""`jcconv pack` and `jcconv unpack`: components and the CAP file, a JAR, that loaders take (Java Card Virtual Machine
Specification 2.2.2, section 4.1.3)."""
import io
import os
import sys
import zipfile

import components
import exportfile
import helping
import listfile

EPOCH = (1980, 1, 1, 0, 0, 0)
MANIFEST = "META-INF/MANIFEST.MF"


class Ended(Exception):
    """What ends the command: the exit status and the line that tells it."""

    def __init__(self, status, line):
        super().__init__(line)
        self.status = status


def read_file(path):
    try:
        with open(path, "rb") as source:
            return source.read()
    except FileNotFoundError:
        raise Ended(3, f"absent {path}") from None
    except OSError:
        raise Ended(5, f"shelf fault {path}") from None


def write_file(path, data):
    """Writes a file whole or not at all."""
    part = f"{path}.part{os.getpid()}"
    try:
        with open(part, "wb") as out:
            out.write(data)
        os.replace(part, path)
    except OSError:
        if os.path.exists(part):
            os.unlink(part)
        raise Ended(5, f"shelf fault {path}") from None


def aid_words(aid):
    return ":".join(f"0x{byte:02x}" for byte in aid)


def attributes(package, listing, name):
    """The attributes of the manifest, in order (section 4.1.3.1)."""
    head = package.header
    number = "{}.{}".format
    pairs = [("Manifest-Version", "1.0"), ("Created-By", f"jcconv {helping.VERSION}"),
             ("Java-Card-Converter-Provider", "jcconv"), ("Java-Card-Converter-Version", helping.VERSION),
             ("Java-Card-CAP-File-Version", number(*head["format"])),
             ("Java-Card-Package-Version", number(*head["version"])),
             ("Java-Card-Package-Name", name.replace("/", ".")), ("Java-Card-Package-AID", aid_words(head["aid"]))]
    classes = {aid: of.split("/")[-1] for of, aid in listing.applets} if listing else {}
    for place, aid in enumerate(package.applets, 1):
        if aid in classes:
            pairs.append((f"Java-Card-Applet-{place}-Name", classes[aid]))
        pairs.append((f"Java-Card-Applet-{place}-AID", aid_words(aid)))
    for place, (version, aid) in enumerate(package.imports, 1):
        pairs.append((f"Java-Card-Imported-Package-{place}-AID", aid_words(aid)))
        pairs.append((f"Java-Card-Imported-Package-{place}-Version", number(*version)))
    return pairs + [("Java-Card-Integer-Support-Required", "TRUE" if head["flags"] & 1 else "FALSE")]


def manifest(pairs):
    """The bytes of a manifest: lines of at most 72 bytes, which a space continues."""
    out = b""
    for name, value in pairs:
        line = f"{name}: {value}".encode()
        out += line[:72] + b"\r\n"
        for at in range(72, len(line), 71):
            out += b" " + line[at:at + 71] + b"\r\n"
    return out + b"\r\n"


def package_name(package, folder, listing):
    """The package's name: of Header, or else of the list, or else of the export file with its AID in the folder."""
    if package.header["name"]:
        return package.header["name"]
    if listing:
        return listing.package
    for name in sorted(os.listdir(folder)):
        if name.endswith(".exp"):
            try:
                of = exportfile.read(os.path.join(folder, name))
            except (OSError, exportfile.BadExport):
                continue
            if of.aid == package.header["aid"]:
                return of.package
    raise Ended(1, "jcconv: Header has no package name, and no export file in the folder has it: name the list too")


def listing_of(path, package):
    """The list at a path; it has to be of the package that is packed."""
    listing = listfile.Listing(read_file(path))
    if listing.wrong:
        raise Ended(2, f"refused 107 {path} - - {listing.wrong[0].at}")
    if listing.aid != package.header["aid"]:
        raise Ended(2, f"jcconv: {path} is the list of another package: its AID is not that of Header")
    return listing


def tell_stale(package, folder):
    """Says which component files of the folder are none of the package's."""
    for name in components.FILES:
        if name not in package.names() and os.path.exists(os.path.join(folder, name)):
            print(f"left out {name}: Directory counts no such component; it is an earlier package's", file=sys.stderr)


def pack(folder, path, listing_path, method):
    """Writes the CAP file of the components in a folder, and prints the name and the length of what is in it."""
    package = components.Components(lambda name: read_file(os.path.join(folder, name)))
    listing = listing_of(listing_path, package) if listing_path else None
    name = package_name(package, folder, listing)
    entries = [(MANIFEST, manifest(attributes(package, listing, name)))]
    entries += [(f"{name}/javacard/{components.FILES[tag - 1]}", package.data[tag])
                for tag in components.LOADED if tag in package.data]
    write_file(path, jar(entries, method))
    tell_stale(package, folder)
    for entry, data in entries:
        print(entry, len(data))


def jar(entries, method):
    """The bytes of a JAR file: equal entries give equal bytes."""
    out = io.BytesIO()
    with zipfile.ZipFile(out, "w", method) as archive:
        for name, data in entries:
            entry = zipfile.ZipInfo(name, EPOCH)
            entry.create_system, entry.external_attr, entry.compress_type = 3, 0o100644 << 16, method
            archive.writestr(entry, data)
    return out.getvalue()


def members(path):
    """The component files in a CAP file, by name, in the order of tags."""
    read_file(path)
    try:
        with zipfile.ZipFile(path) as archive:
            found = {}
            for entry in archive.infolist():
                *folder, name = entry.filename.split("/")
                if name in components.FILES and folder and folder[-1] == "javacard":
                    found.setdefault("/".join(folder), []).append((name, entry))
            if len(found) != 1:
                raise Ended(2, f"jcconv: {path} has components of {len(found)} packages, and has to have those of one")
            pairs = next(iter(found.values()))
            if len(dict(pairs)) < len(pairs) or any(entry.file_size > components.LONGEST for _, entry in pairs):
                raise Ended(2, f"jcconv: {path} has a component twice, or one of more than {components.LONGEST} bytes")
            pairs.sort(key=lambda pair: components.FILES.index(pair[0]))
            return {name: archive.read(entry) for name, entry in pairs}
    except (zipfile.BadZipFile, EOFError, NotImplementedError, RuntimeError):
        raise Ended(2, f"jcconv: {path} is no JAR file") from None


def unpack(path, folder):
    """Writes the components of a CAP file into a folder, and prints the name and the length of each."""
    found = members(path)

    def fetch(name):
        if name not in found:
            raise Ended(3, f"absent {name} in {path}")
        return found[name]
    package = components.Components(fetch)
    for name in found:
        write_file(os.path.join(folder, name), found[name])
        print(name, len(found[name]))
    for name in components.FILES:
        if name not in package.names() and os.path.exists(os.path.join(folder, name)):
            print(f"{os.path.join(folder, name)} is no component that Directory counts", file=sys.stderr)


def main(words):
    """Packs or unpacks by the words of the command line; gives the exit status."""
    method = zipfile.ZIP_DEFLATED if "--deflate" in words else zipfile.ZIP_STORED
    names = [word for word in words[1:] if word != "--deflate"]
    try:
        if words[0] == "pack" and len(names) in (2, 3):
            pack(names[0], names[1], names[2] if len(names) == 3 else None, method)
        elif words[0] == "unpack" and len(names) == 2 and "--deflate" not in words:
            unpack(*names)
        else:
            return helping.usage(words[0])
    except Ended as end:
        print(end, file=sys.stderr)
        return end.status
    except components.Refused as refused:
        print(refused, file=sys.stderr)
        return 2
    return 0
