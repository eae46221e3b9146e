"""What ./waikurpeho help prints."""
from . import findings

HELP = """\
waikurpeho: plan how boxes sit in a case, and check a finished load sheet

  ./waikurpeho plan points|layers ORDER.. [consider N] [-o SHEET]
                                    plan an order with one of the two placers
  ./waikurpeho plan both ORDER..    what each placer leaves out, side by side
  ./waikurpeho check SHEET..        the findings on a sheet, each with a sentence
  ./waikurpeho fill SHEET..         the fill per thousand
  ./waikurpeho show SHEET..         a sheet or an order as text
  ./waikurpeho draw SHEET.. -o PICTURE.svg
                                    a picture, with the findings marked in it
  ./waikurpeho all points|layers ORDER.. [consider N] -o NAME
                                    plan, show, check, fill and draw: NAME.sheet and NAME.svg
  ./waikurpeho help [COMMAND|text|many]
                                    more on a command, how to write an order as text, many files at once
  ./waikurpeho --version            the version, and the toolchain's identity

An ORDER or a SHEET is a text (help text) or a load file, which is told by a name in .txt or by what the
file holds; '-' is standard input. What is made goes where -o says, from the folder that you are in, and
else to standard output. --json and --csv print values instead of words (docs/OUTPUT.md).
The first use builds the proved programs into target/, which takes a while.

%s.
%s.
Exit status: 0 done, and nothing found; 1 findings, or refused by a program, or with --strict boxes left
out; 2 anything else
""" % (findings.NOT_JUDGED.capitalize(), findings.UPWARDS.capitalize())
MORE = {
    'plan': """\
./waikurpeho plan points|layers|both ORDER.. [consider N] [list] [-o SHEET] [--strict] [--json|--csv]

points is the extreme-point placer, layers the layer placer. Lines and unplaced ids in ORDER are left
aside. With 'consider N' the placer looks at the first N boxes only, in its own order. Without -o the
planned sheet is printed as text; with -o it is written as a load file, or as text if the name ends in
.txt ('-o -': a load file on standard output). With 'list' the program's own list is printed instead,
floats as 16 hex digits. Status 1 and nothing written if the order is refused.

What is left out is told for each kind, so many of so many; both shows it for both placers side by side
and writes nothing. With --strict the status is 1 if a box is left out.
""",
    'check': """\
./waikurpeho check SHEET.. [exact] [--json|--csv]

Prints what the proved program check_sheet prints, and below each line a comment that says it in words.
With 'exact', nothing but what the program prints. Lines are counted from 0. Status 0: no findings.
It looks at %s.
%s.
""" % (findings.LOOKED_FOR, findings.NOT_JUDGED.capitalize()),
    'fill': """\
./waikurpeho fill SHEET.. [exact] [--json|--csv]

The volume of all lines of known kinds times 1,000, divided by the container's volume, rounded down.
Refused by 8 if a length of the container or of a kind is not whole or is over 10,000; then the percentage
is worked out here from the volumes, which is not proved. With 'exact', nothing but what the proved program
sheet_fill prints.
""",
    'show': """\
./waikurpeho show SHEET.. [-o TEXT] [--json|--csv]

Prints a load file as text, or a text as it is read. It can be edited and given back.
""",
    'draw': """\
./waikurpeho draw SHEET.. [-o PICTURE.svg] [--json|--csv]

Checks the sheet and draws it: each case from above, from the front and from the right side, boxes
coloured by kind, lines with findings in red. Where a box is hidden from all three sides, or too small
for its number in each, the boxes are drawn layer by layer too. Any browser shows an SVG, and says more where the pointer rests on a box.
Status 1 if the sheet has findings.
""",
    'all': """\
./waikurpeho all points|layers ORDER.. [consider N] -o NAME [--strict] [--json|--csv]

Plans ORDER, writes the sheet to NAME.sheet, prints it as text with its findings and its fill, and draws
it to NAME.svg. Status 1 if the order is refused or the sheet has findings, or with --strict if a box is
left out. A fill that is refused by 8 is no fault of the plan, and the placer's own figure is told instead.
""",
    'many': """\
Many files at once

  ./waikurpeho check SHEET SHEET SHEET
  find sheets -name '*.sheet' | ./waikurpeho check --names
  ./waikurpeho all points orders/*.txt -o FOLDER

Every command takes many files, or with --names a list of names on standard input, one to a line (or as
'find -print0' writes them). They are worked on by all processors. A row is printed for each, in their
order, a bad one does not stop the others, and the status is the worst of them. -o names a folder, in
which each result has its file's name with the ending .sheet, .svg or .txt. --json prints all values, an
object to a line for each file; --csv a table: --csv=summary, boxes, kinds or findings (docs/OUTPUT.md).
""",
}
