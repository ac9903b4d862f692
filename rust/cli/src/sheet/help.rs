//! How `sheet` is used.

/// What `--help` prints.
pub const TEXT: &str = "\
Prints the sheet of a sighting in English, Danish, Russian and Welsh.

  --species NAME    porpoise, minke, humpback or dolphin; any other is an animal (porpoise)
  --count N         the size of the group, calves included (3)
  --calves N        how many of them are calves (1)
  --distance N      metres from the flight line (400)
  --leg N           the leg of the flight (7)
  --observer NAME   who saw it (Anna Berg)
  --no FIELD        leave a field out: species, count, calves, distance, leg or observer

  --language L      one language only: en, da, ru or cy
  --message ID      one message only, in place of the sheet's
  --attribute ID    an attribute of that message
  --store FILE      format from this store, in place of the sheets
  --arguments FILE  format with this arguments image, in place of the fields; its
                    names ascend by their bytes, each once, and no number has a zero
                    at the end of its fraction, else it is refused with 19
  --isolate         put isolation marks around what is filled in
  --figures         add the figures: placeables begun, ids unfound, errors, bytes of
                    text, and the bytes of workspace that are needed
  --workspace BYTES lend a workspace of just so many bytes, in place of 65536;
                    at most 16777216
  --lines           a line for each message, its parts set apart by tabs:
                    language, message, begun, unfound, errors, text, each error

  --save-store FILE --save-arguments FILE
                    write the store of the last language, and the arguments image

A number has at most 15 digits: 3, -3 or 3.5. Of equal options the last holds,
so of a field that is given twice the last value; --no leaves a field out, wherever
it stands. Fields may be given in any order: the arguments image has the names in
ascending order, and 3.50 as 3.5, so that equal sightings make equal images.

A sheet is the messages sheet, seen, away and who of a store, with its message
line between two of them. Its errors and its figures stand below it. Behind the
errors, and not counted among them, it is said where the isolation marks are not
paired (but not by --lines), which is so only where a sentence or a field contains
U+2068 or U+2069.
";
