"""The words of the script ./wf itself, in one table: help, usage and completions are made from it."""
from __future__ import annotations

import dataclasses

QUIET = "--quiet"


@dataclasses.dataclass(frozen=True)
class Form:
    """A way to call a word, and its description, for a line of the overview."""

    words: str
    does: str


@dataclasses.dataclass(frozen=True)
class Word:
    """A word of the script. `argument` says what follows it: a file, a folder, a word with help, or nothing."""

    name: str
    usage: str
    forms: tuple[Form, ...]
    details: str
    options: tuple[str, ...] = ()
    argument: str = ""


@dataclasses.dataclass(frozen=True)
class Extension:
    """The additions of the script to a word of the program: ways to call it, help, and options. A file may follow
    each."""

    name: str
    forms: tuple[Form, ...]
    details: str
    options: tuple[str, ...] = ()


TABLE = (
    Word(
        "build",
        "build [--unproved]",
        (
            Form("build", "proves and builds the program"),
            Form("build --unproved", "builds it optimized, with no proof, in about a minute"),
        ),
        """Proves each crate that the program needs, and builds crates/wf/out/wf. Proofs of
'rt ci' on this machine are taken and not made again, and the proofs of this build are kept for 'rt ci'.

With --unproved it builds crates/wf/out/wf.unproved from the same sources, optimized and with no proof.

Nothing is built if the file is made from the sources as they are: next to it is a record with their
checksum. A proved file, with its record, is also kept in the folder lacrossefir of $XDG_CACHE_HOME, or of
~/.cache: every checkout with the same sources and the same kit takes it from there. The newest four of each
product stay. If a build fails or is stopped, the file is not replaced. A build needs some hundred megabytes of
temporary files, in the folder that TMPDIR names; with proofs it needs three gigabytes.""",
        ("--unproved",),
    ),
    Word(
        "lib",
        "lib [--unproved] [--kernel]",
        (
            Form("lib", "proves and builds the static library for C (docs/C.md)"),
            Form("lib --unproved", "builds it optimized, with no proof, in about a minute"),
            Form("lib --kernel", "builds it for a kernel module"),
        ),
        """Proves each crate that the library needs, builds crates/wf_c/out/libwf.a, and prints its path. With
--unproved the library is crates/wf_c/out/libwf.unproved.a. The file wf.pc in the same folder is for
pkg-config: it names the library that was built last, and its variable 'proved' is yes or no. If there
is a C compiler, the folder crates/wf_c/out/shared gets a shared library of the same, for Python.

With --kernel the library is crates/wf_c/out/libwf.kernel.a or libwf.kernel.unproved.a, for a kernel module: it
uses no floating point, and needs only malloc, free, memcpy, memmove and memset (docs/C.md).

The library is built from the same sources under the same rules as the program: './wf help build'.""",
        ("--unproved", "--kernel"),
    ),
    Word(
        "install",
        "install PREFIX [--unproved] [--library]",
        (
            Form("install PREFIX", "puts the built program and library in a folder, with manual pages"),
            Form("install PREFIX --unproved", "also takes what is not proved"),
            Form("install PREFIX --library", "puts only the library there"),
        ),
        """Puts the program, the library for C (static and shared), its headers, files for pkg-config and CMake,
manual pages and completions for shells below the folder PREFIX, and prints each file. Only the program is
installed if no library is built, and only the library if no program is built. With --library only the
library is installed. Without --unproved all that is installed has to be proved. pkg-config and CMake know the
library as 'wf', proved or not: 'pkg-config --variable=proved wf' and wf_PROVED of CMake say which it is.

Each file is replaced whole, and no file is replaced if one of them cannot be. If DESTDIR is set, everything is
put below DESTDIR/PREFIX. CC names the C compiler that links the shared library. PREFIX/share/wf/manifest lists
the files.""",
        ("--unproved", "--library"),
        "folder",
    ),
    Word(
        "uninstall",
        "uninstall PREFIX",
        (Form("uninstall PREFIX", "removes what 'install PREFIX' put there"),),
        """Removes the files that PREFIX/share/wf/manifest lists, and the folders below PREFIX that './wf install'
made, if they are empty, and prints each file. A file that was changed since is left and reported. DESTDIR is
used as by './wf install'.""",
        (),
        "folder",
    ),
    Word(
        "dist",
        "dist [FOLDER] [--unproved]",
        (Form("dist [FOLDER]", "makes a source archive and a binary one, with checksums"),),
        """Makes three files in FOLDER, or in out/dist: the sources (wf-VERSION.tar.gz), the files of './wf install'
(wf-VERSION-SYSTEM-MACHINE.tar.gz, with licences), and SHA256SUMS. The binary archive has a file SHA256SUMS of
its own; unpack it anywhere. Its folder python has a wheel of the package wfpath, with the shared library in
it, for 'pip install'. Program and library have to be built. Without --unproved both have to be proved;
if one is not, the archive's name says 'unproved'.

The same sources and the same built files make the same archives: names are sorted, and each file has the time
of the last commit, or of SOURCE_DATE_EPOCH. The sources are the files that git knows, as they are in the
checkout. checks/dist tries the archives; nothing of them is proved, except the proved files in them.""",
        ("--unproved",),
        "folder",
    ),
    Word(
        "sim",
        "sim SCENARIO",
        (Form("sim SCENARIO", "runs stations and flows in simulated time (docs/SIM.md)"),),
        """Runs a scenario in simulated time. './wf sim --help' lists its options. If no program is built from these
sources, a proved one is taken from the cache ('./wf help build'), or the unproved one is built first.""",
        (),
        "file",
    ),
    Word(
        "explain",
        "explain [FILE]",
        (Form("explain [FILE]", "replays a trace, and explains each call in words"),),
        """Replays the trace of FILE, or of standard input, and writes a paragraph for each call when it is answered: the
question, the answer, for a refusal its rule, and for a pull why the scheduler picked the station. The
status is the one of './wf replay'.

The script says only what follows from the text of the calls and answers and from the rules of docs/MACHINE.md.
What it says is not proved.""",
        (),
        "file",
    ),
    Word(
        "timeline",
        "timeline [FILE] [-o FILE.svg]",
        (Form("timeline [FILE] [-o FILE.svg]", "replays a trace, and draws its exchanges in time"),),
        """Replays the trace of FILE, or of standard input, and draws a picture in SVG to standard output, or with -o to
a file, which is replaced whole. Stations are rows; an exchange is a bar as long as its airtime, and lost and
repeated transmissions are marked. A trace has no time within a tick: exchanges of one clock time follow each
other, in the order of their pulls. The status is the one of './wf replay'.

The picture is drawn by the script. It is not proved.""",
        ("-o",),
        "file",
    ),
    Word(
        "convert",
        "convert [--fcs] IN OUT",
        (Form("convert IN OUT", "makes a capture that frames reads, without radiotap fields"),),
        """Reads the capture IN, of the format of libpcap or pcapng, and writes the capture OUT for './wf frames': of
the format of libpcap, with IEEE 802.11 frames alone (link type 105). Radiotap fields (link type 127) are
removed, and the frame check sequence of each frame of which they say that it has one. With --fcs the last four
octets of every frame are removed: some captures of link type 105 have a frame check sequence and do not say
so. IN and OUT may be -, standard input and output. OUT is replaced whole.

Status 2: IN is no such capture; a file OUT stays as it was. Nothing of the conversion is proved.
checks/captures compares it with tshark.""",
        ("--fcs",),
        "file",
    ),
    Word(
        "which",
        "which [--library]",
        (Form("which [--library]", "prints which program answers, or which library is built"),),
        """Prints 'proved PATH', 'unproved PATH' or 'named PATH': the program that answers. 'named' is the program that
the variable WF_PROGRAM names. The status is 1 if none is built from these sources. With --library it prints
the same for the static library.""",
        ("--library",),
    ),
)
BY_NAME = {word.name: word for word in TABLE}
FILE_ONLY = """The script ./wf also takes the name of a file, which it opens as standard input: ./wf {} FILE.
Status 125: the file cannot be read."""
EXTENSIONS = (
    Extension(
        "replay",
        (
            Form("replay FILE", "reads a file; frames, session and uplink take one likewise"),
            Form("replay --echo [FILE]", "writes each call's line before its answer"),
            Form("replay --json [FILE]", "writes an object of JSON for each answer, and one for the summary"),
        ),
        """The script ./wf adds to this. Nothing that it adds is proved.

  ./wf replay [--pcap] FILE    opens FILE as standard input
  ./wf replay --echo [FILE]    writes each call's line, after "> ", before its answer
  ./wf replay --json [FILE]    writes an object of JSON, on a line of its own, for each answer, and
                               one for the summary. The names are those of the structs of
                               include/wf.h, as struct wf_reply. "line" is the line of the call.
                               With --echo, too, each object has its call (struct wf_call).

An answer is shown as soon as the program has written it. The status is the program's. Status 125:
the file cannot be read.""",
        ("--echo", "--json"),
    ),
    Extension(
        "frames",
        (),
        f"""{FILE_ONLY.format("frames")} After a fault the
script says on standard error what was found and what to do, unless --quiet is the first word.
None of this is proved. The kinds of faults are:

  too-big   a header or a packet does not end within the first 2^40 octets
  magic     the input does not begin as a file of the format of libpcap
  version   the version is not 2.4
  link      the link type is not 105: packets of another network, or with radio fields (127);
            './wf convert IN OUT' removes these
  long      the captured length of a packet is above 262144
  short     the input ends inside a header or a packet""",
    ),
    Extension("session", (), FILE_ONLY.format("session")),
    Extension("uplink", (), FILE_ONLY.format("uplink")),
)
EXTENDED = {extension.name: extension for extension in EXTENSIONS}
