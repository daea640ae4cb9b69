//! More on each command.

pub const TOPICS: [(&str, &str); 21] = [
    (
        "put",
        "\
put KEY VALUE

Puts a value of at most {VALUE_BYTES} bytes under a key, in place of an earlier one.
A longer one is refused by 17; by 18, where the memory table holds 16 keys and
this is a new one: `flush` first.

A word with a point behind a whole number is taken for metres. Put double
quotes around a value that begins with a number or is empty; in a shell, single
quotes around these: surveyctl put 5 '\"3.450\"'.

  put 12 3.450 crack
  put 5 \"3.450\"
  put 5 \"20 % root\"
  put 0x50 hex:00ff41
",
    ),
    (
        "get",
        "\
get KEY

Prints the value under a key; `no value` and exit status 1 if there is none.

  get 12 3.450
",
    ),
    (
        "del",
        "\
del KEY

Takes the value under a key away, if there is one. A delete mark stays until a
tidy merges it where nothing below can be under its key (`help tidy`).

  del 12 3.450
",
    ),
    (
        "scan",
        "\
scan [RANGE]

Prints all values of a range, keys rising, sixteen at a time asked of the
store. In `encode` it is one request, which gives the first 16. Refused by 19
where the first end is above the last.

  scan
  scan 12 3.000 4.000
  scan line 12
  scan 12 3.000 13 0.500
  scan first 99
",
    ),
    (
        "flush",
        "\
flush

Writes the memory table to a place, newest on level 0, and empties it. Refused
by 20 where no place is free.
",
    ),
    (
        "tidy",
        "\
tidy
tidy all

One step of compaction: a table moved down, linked down, or merged; the level
is the one that it stood on. A merge comes first where one is due: of a table
with as many links as the threshold says, or with links that weigh at least as
many entries as it has itself. `tidy all` goes on until there is nothing to do.
A merge drops a delete mark where no table on a lower level (of greater number)
has a span that holds its key; `show` counts the marks that are left.
Refused by 20 where a merge wants more places than are free.
",
    ),
    (
        "report",
        "\
report

Counts: free places, live tables on levels 0 to 3, frozen places, links,
entries of the memory table.
",
    ),
    (
        "probe",
        "\
probe KEY

Prints what a look-up of this key gives, how many tables it opens for it, and
how many bits are set in the summaries of these; then the tables, in the order
of reading. Each table has 256 bits, three set for each of its keys; a look-up
opens a table only if the three bits of its key are set. Of the tables that it
asks (on level 0 all, on levels 1 to 3 the one whose span holds the key and
those of its links whose range does) most are so passed. One that is opened and
does not hold the key is opened in vain. Memory is no table; where it decides,
none is asked. The exit status is 0 whether there is a value or not.

  probe 12 3.450
",
    ),
    (
        "check",
        "\
check

Prints `sound`; or `first broken rule` and its letter, the first in the order A
to G. Then the exit status is 3, and the text of the rule is on standard error.
The rules before it hold, those behind it may be broken too: mend it and check
again, and the next letter comes. A file that is no store is refused by 1, with
status 3 too, but has no letter: nothing is on standard output.

Stores sorted by their letters:

  for file in *.store; do
    echo \"$(surveyctl --store \"$file\" check 2> /dev/null) $file\"
  done | sort
",
    ),
    (
        "show",
        "\
show [--ascii] [--svg FILE]

Draws the levels, the tables with their spans of keys, links and frozen places;
with --svg as a picture into FILE (- is standard output). Bars go by the order
of the keys that are there, each key as wide as the next. Numbers are entries;
5/16 says that a table's links weigh 5 and that it has 16 itself; 15% says how
many of the 256 bits of its summary are set (`help probe`). Delete marks are
counted, those in slices too. At the prompt and in scripts: `show` alone.

  surveyctl --store van.store show --svg van.svg
",
    ),
    (
        "new",
        "\
surveyctl --store FILE [--places N] [--threshold N] new

Makes a store in a file that does not exist yet. The file has a head of
{HEAD_BYTES} bytes (the letters ZILGWERN; the form, 3, and the bytes of the area in
four each), then the area, 1,024 bytes for each place, then the saved book.
`save` gives the two as files of their own.

Whenever the store changes, the file is replaced whole: a new one is written
beside it, FILE.new- and the number of the program, brought to the disk, and
then renamed. So a crash leaves the old store or the new one, and area and book
are always of one moment. What a crash leaves beside it, the next call removes;
names of that form are surveyctl's own.

A file of the form before this one is read, and said to be old; the next change
writes the new form.

  surveyctl --store van.store --places 64 --threshold 2 new
",
    ),
    (
        "grow",
        "\
surveyctl --store FILE grow --places N

Gives a store more places, up to 4,096. The added ones are free; all else stays
as it is, so a store that refuses by 20 can go on. Refused by 22 where it has
more than N.

  surveyctl --store van.store grow --places 128
",
    ),
    (
        "save",
        "\
surveyctl --store FILE save --book BOOK --area AREA

Writes the store into two plain files: the saved book in BOOK, in the format of
the order, and the places' bytes in AREA. The store stays as it is. Neither
file may be there yet, and the book is written last: so the two are never of
different moments, and where the book is, the area is. An area without a book
was not finished: remove it and save again.

  surveyctl --store van.store save --book van.book --area van.area
",
    ),
    (
        "open",
        "\
surveyctl --store FILE [--places N] open --book BOOK --area AREA

Makes a store of a saved book and the area that belongs to it, in a FILE that
does not exist yet. With --places the area is taken as one of N places; more
than the book names are free. Refused by 1 where the area is not 16 to 4,096
places of 1,024 bytes; by 21 where BOOK is no saved book, or not all of one; by
22 where it names more places than the area has; by 5 and a letter where the
store so opened is not sound. An area of another time than the book's may give
that, or a sound store with other values: keep the two together.

  surveyctl --store office.store open --book van.book --area van.area
",
    ),
    (
        "prompt",
        "\
surveyctl [OPTIONS] prompt

Asks for commands one by one. A file that --store names is written after each
that changes the store, and only then is it answered. `quit` or the end of the
input ends it.
",
    ),
    (
        "script",
        "\
surveyctl [OPTIONS] script [-k | --keep-going] [FILE]

Runs the commands in FILE, or in standard input, line by line; empty lines and
lines that begin with # are passed over. It stops at the first line that is
refused or not understood; with -k it goes on, and exits with status 2 at the
end. What was done before is kept in either case: the file that --store names
is written once, at the end.
",
    ),
    (
        "replay",
        "\
surveyctl [OPTIONS] replay [--progress] [--answers FILE] LIST

Runs the requests of a binary file (- is standard input). It may be longer than
one list: it is cut into lists of at most 65,536 bytes. A file that is broken
is refused before anything is run. Progress is told on a terminal, or in any
case with --progress. The file that --store names is written once, at the end.
",
    ),
    (
        "encode",
        "\
surveyctl encode [--hex] [FILE] > LIST

Writes the commands of a script as a binary list, as the program `survey` reads
it; with --hex in hexadecimal. `tidy all`, `check` and `show` are no requests
and have no place in a list.
",
    ),
    (
        "decode",
        "\
surveyctl decode [--hex] list [FILE]
surveyctl decode [--hex] answers [FILE]

Prints a binary list as commands, which `encode` makes into the same list
again, or the answers of the program `survey` in words. Requests that the store
will refuse for their kind or length become comments. With --hex the input is
hexadecimal.
",
    ),
    (
        "help",
        "\
help [COMMAND]

Lists the commands, or says more on one.
",
    ),
    (
        "quit",
        "\
quit

Ends the prompt or the script; so does `exit`.
",
    ),
];
