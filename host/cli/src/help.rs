//! The help texts.

pub const TOOL: &str = "\
mivrozh: LUKS version 1 drives in files and block devices

Usage: mivrozh COMMAND [OPTIONS] IMAGE

Commands:
  format    make a new drive with a random master key and a first passphrase
  add       add a passphrase
  change    change a passphrase
  revoke    remove a passphrase
  slots     show which key slots are enabled
  uuid      print the drive's UUID
  test      say which key slot a passphrase opens
  estimate  say how long openings take on this machine
  read      decipher units of the payload into a file
  write     encipher a file into units of the payload

For installers:
  manual                print the manual page, mivrozh(1)
  completions SHELL     print completions for a shell: bash, zsh or fish

'mivrozh help COMMAND' says more about each, with an example; 'mivrozh -V' prints the version.

IMAGE is a file or a block device that holds a whole drive. A passphrase is read from a key file (--key-file, every byte
of it, a newline too, or the bytes that --key-file-offset and --key-file-size name; '-' is standard input), or asked for at
the terminal, up to three times where it is mistyped; it is never an argument. A drive has eight key slots, 1 to 8, with one
passphrase each. cryptsetup and qemu count the same slots from 0: our slot 1 is their slot 0. A unit of the payload is 512
bytes.

What takes time is the derivation of keys from passphrases, that is, the making of HMAC values; how many are needed stands in
the drive's header. Where it takes half a second or more and standard error is a terminal, a bar shows there how far it is, and
ends with the number that was made.

A drive is changed sector by sector, in an order in which a cut harms no other passphrase, and of a change leaves the old one
or the new one. While the tool uses it, it is locked against other runs of this tool and against qemu; a block device that
is written must be in use by nothing else, such as a mounted file system, and a file must not be attached to a loop device.
Programs that keep to no lock cannot be kept away: cryptsetup on drives of version 1, dd, or another machine that shares
the disk.

Where a disk fails on the way, what it holds may be known only after a restart. The message says so: restart the machine then,
or unplug the disk and plug it in again, before any other command, and revoke nothing before that.

After a power cut:
  format   give the same command again; where the start is no longer zeros, it asks whether that may be lost, or needs --force
  add      give it again; where it is refused since its slot is in use, it was done
  change   give it again; where it is refused since the new slot is in use, see that the new passphrase opens that, and revoke
           the old slot, if that is in use too
  revoke   give it again, before any other command: till then its slot may count as in use and open with no passphrase
  write    give it again

Exit status:
   0       done
   1 to 20 refused; the message says why and what to do, and nothing was changed (but see 'mivrozh write --help')
  64       wrong usage
  65       wrong input: passphrases that differ, a key file that is too short, a question not answered by yes, data that is no
           whole number of units
  66       a file that is missing or cannot be read
  73       a file that cannot be opened for writing, or that is there already
  74       reading or writing failed on the way, as on a full disk
  75       another program is using the image or has changed it meanwhile
 130       interrupted by Ctrl-C (other signals likewise: 128 and the signal's number)

Example:
  truncate -s 64M drive.img
  mivrozh format drive.img
  mivrozh test drive.img
";

pub const FORMAT: &str = "\
mivrozh format: make a new drive

Usage: mivrozh format [OPTIONS] IMAGE

Makes a random master key, writes a new header and puts the key under a first passphrase into key slot 1. The payload starts
on a whole mebibyte, so the file must be there and be long enough: 2 MiB and the payload with the default values, 1 MiB and
the payload where fewer stripes let the key areas end before that. The payload keeps its bytes. All that stands before it is
lost: an older drive, a file system or a partition table. Where that is anything but zeros, you are told what it is and asked.

After a power cut give the same command again. The start may no longer be zeros then: you are asked, or --force is needed.

Options:
  --hash NAME                sha1 or sha256 (default sha1: a reader may know no other); ask for sha256 where every reader of
                             the drive knows it
  --key-size BITS            256 or 512 (default 512)
  --iterations N             how often the slot's derivation is iterated, 1000 or more (default 500000)
  --iter-time MS             as often as this machine does in so many milliseconds
  --checksum-iterations N    how often the derivation of the key's checksum is, 1000 or more (default: an eighth of the
                             slot's)
  --stripes N                stripes of each key slot, 1 to 4000 (default 4000; other tools read no others)
  --uuid TEXT                36 characters (default: a random UUID)
  --key-file FILE            the passphrase; without it you are asked, twice
  --key-file-offset N        where in the key file the passphrase begins, in bytes (default 0)
  --key-file-size N          how many bytes of the key file it has (default: all up to the end)
  --force                    overwrite what is there without asking

Example:
  truncate -s 64M drive.img
  mivrozh format --key-size 256 drive.img
";

pub const ADD: &str = "\
mivrozh add: add a passphrase

Usage: mivrozh add [OPTIONS] IMAGE

Opens the drive with a passphrase that it has, and puts its key under a new one into a free key slot. After a power cut give
the same command again; where it is refused since the slot is in use, it was done.

Options:
  --slot N                   the key slot, 1 to 8 (default: the first free one); cryptsetup counts from 0: our 1 is its 0
  --iterations N             how often the derivation is iterated, 1000 or more (default 500000)
  --iter-time MS             as often as this machine does in so many milliseconds
  --key-file FILE            a passphrase that the drive has; without it you are asked
  --key-file-offset N        where in the key file the passphrase begins, in bytes (default 0)
  --key-file-size N          how many bytes of the key file it has (default: all up to the end)
  --new-key-file FILE        the new passphrase; without it you are asked, twice
  --new-key-file-offset N    where in its key file the new passphrase begins, in bytes (default 0)
  --new-key-file-size N      how many bytes of its key file it has (default: all up to the end)

Example:
  mivrozh add --slot 2 --new-key-file second.key drive.img
";

pub const CHANGE: &str = "\
mivrozh change: change a passphrase

Usage: mivrozh change [OPTIONS] IMAGE

Opens a key slot with its passphrase, puts the key under the new passphrase into a free slot, and then revokes the first. So
a free slot is needed, and the passphrase has another slot afterwards. Where a passphrase is asked for, you see first
which slots are enabled.

After a power cut give the same command again. Where it is refused since the new slot is in use, see that the new passphrase
opens that, and revoke the old slot, if that is in use too. Without --to a free slot is chosen anew, and may be another one:
'mivrozh slots' shows which slots are enabled.

Options:
  --slot N                   the key slot to change, 1 to 8 (default: the first that the passphrase opens); cryptsetup
                             counts from 0: our 1 is its 0
  --to N                     the key slot for the new passphrase, 1 to 8 (default: the first free one)
  --iterations N             how often the derivation is iterated, 1000 or more (default 500000)
  --iter-time MS             as often as this machine does in so many milliseconds
  --key-file FILE            the old passphrase; without it you are asked
  --key-file-offset N        where in the key file the passphrase begins, in bytes (default 0)
  --key-file-size N          how many bytes of the key file it has (default: all up to the end)
  --new-key-file FILE        the new passphrase; without it you are asked, twice
  --new-key-file-offset N    where in its key file the new passphrase begins, in bytes (default 0)
  --new-key-file-size N      how many bytes of its key file it has (default: all up to the end)

Example:
  mivrozh change --slot 1 --to 2 drive.img
";

pub const REVOKE: &str = "\
mivrozh revoke: remove a passphrase

Usage: mivrozh revoke [OPTIONS] --slot N IMAGE

Overwrites the slot's area with random bytes and disables the slot. No passphrase is asked for, but whether this slot is
meant, and you see which slots are enabled. The last slot in use is not revoked.

After a power cut give the same command again, before any other. Till then the slot may count as in use and open with no
passphrase, so that the last one that opens could be revoked.

Options:
  --slot N    the key slot, 1 to 8; cryptsetup counts from 0: our 1 is its 0
  --force     revoke it without asking

Example:
  mivrozh revoke --slot 2 drive.img
";

pub const SLOTS: &str = "\
mivrozh slots: show which key slots are enabled

Usage: mivrozh slots [OPTIONS] IMAGE

Shows of each key slot, 1 to 8, whether it is enabled, that is, has a passphrase. cryptsetup counts from 0: our 1 is
its 0, and the table has both numbers. No passphrase is asked for, and nothing is changed.

With --json one object is printed. Its list \"slots\" has an object for each key slot, with the numbers \"slot\"
(from 1) and, with --details, \"count\" (the iterations), \"start\" and \"stripes\"; \"enabled\" is true or false.

Options:
  --details    also show the iterations, the start of the area (in sectors of 512 bytes) and the stripes that the
               header has for each key slot, enabled or not
  --json       print JSON in place of the table, for programs

Example:
  mivrozh slots drive.img
  mivrozh slots --details --json drive.img
";

pub const UUID: &str = "\
mivrozh uuid: print the drive's UUID

Usage: mivrozh uuid IMAGE

Prints the UUID that the header has. No passphrase is asked for, and nothing is changed. What is no printable character
of ASCII is escaped, such as \\xff, and so are quotes and backslashes.

Example:
  mivrozh uuid drive.img
";

pub const TEST: &str = "\
mivrozh test: say which key slot a passphrase opens

Usage: mivrozh test [OPTIONS] IMAGE

Tries the enabled key slots from 1 to 8, prints the first that opens, and changes nothing.

Options:
  --slot N               try this key slot only, 1 to 8; cryptsetup counts from 0: our 1 is its 0
  --verbose              also print how many HMAC values were made, in what time, and how many that is in a second; also where
                         nothing opens
  --key-file FILE        the passphrase; without it you are asked
  --key-file-offset N    where in the key file the passphrase begins, in bytes (default 0)
  --key-file-size N      how many bytes of the key file it has (default: all up to the end)

Example:
  mivrozh test --key-file first.key drive.img
";

pub const ESTIMATE: &str = "\
mivrozh estimate: say how long openings take on this machine

Usage: mivrozh estimate [OPTIONS] IMAGE

Shows of each enabled key slot how many HMAC values a trial of a passphrase makes and how long that takes here, and the same of
a failed search, which tries all of them. A search that opens a slot ends there. The numbers are exact, from the drive's header;
this machine is measured, in a fraction of a second, so that times are about right while it does nothing else. No passphrase is
asked for, and nothing is changed.

With --json one object is printed. Its list \"slots\" has an object for each enabled key slot, with the numbers \"slot\" (from
1), \"values\" and \"seconds\"; \"search\" has the last two for a failed search, and \"rates\" the HMAC values a second for
\"keys\" and for \"checksums\".

Options:
  --json    print JSON in place of the table, for programs

Example:
  mivrozh estimate drive.img
";

pub const READ: &str = "\
mivrozh read: decipher units of the payload

Usage: mivrozh read [OPTIONS] --out FILE IMAGE

Deciphers on all processors, with less than 64 MiB of memory. The file is made for its owner only (mode 0600).

Options:
  --first N              the first unit, counted from 0 (default 0)
  --units N              how many units of 512 bytes (default: all up to the end)
  --out FILE             where the plain bytes go; '-' is standard output
  --force                overwrite the file if it is there, or write to a terminal
  --slot N               open this key slot only
  --key-file FILE        the passphrase; without it you are asked
  --key-file-offset N    where in the key file the passphrase begins, in bytes (default 0)
  --key-file-size N      how many bytes of the key file it has (default: all up to the end)

Example:
  mivrozh read --first 0 --units 2048 --out plain.img drive.img
";

pub const WRITE: &str = "\
mivrozh write: encipher data into units of the payload

Usage: mivrozh write [OPTIONS] --in FILE IMAGE

The data must be a whole number of units of 512 bytes. They are enciphered on all processors, with less than 64 MiB of
memory, and written in rising order; where they come from standard input and end or fail early, the units before are written.

Options:
  --first N              the first unit, counted from 0 (default 0)
  --in FILE              the plain bytes; '-' is standard input
  --slot N               open this key slot only
  --key-file FILE        the passphrase; without it you are asked
  --key-file-offset N    where in the key file the passphrase begins, in bytes (default 0)
  --key-file-size N      how many bytes of the key file it has (default: all up to the end)

Example:
  mivrozh write --first 0 --in plain.img drive.img
";
