/* The numbers of rings.h are the outline's: held here to the model's own, which the comparison holds the library to. */
#include "model.h"

_Static_assert(RINGS_ATOMS == MOST_ATOMS, "most atoms");
_Static_assert(RINGS_PLACES == ROW, "places of a row");
_Static_assert(RINGS_BONDS == MOST_BONDS, "most bonds");
_Static_assert(RINGS_LEAST == LEAST_LENGTH, "least length");
_Static_assert(RINGS_LENGTH == MOST_LENGTH, "greatest length");
_Static_assert(RINGS_DEFAULT_LIMIT == DEFAULT_LIMIT, "default limit");
_Static_assert(RINGS_ALLOWANCE == MOST_RINGS, "greatest allowance");
_Static_assert(RINGS_FREE == FREE, "free place");
_Static_assert(RINGS_NO_PATH == UNREACHED, "no path");
_Static_assert(RINGS_TABLE_WORDS(7) == ROW * 7, "words of a table");
_Static_assert(RINGS_DISTANCE_BYTES(7) == 7 * 7, "bytes of the distances");
_Static_assert(RINGS_LIST_WORDS(4) == 4 * (MOST_LENGTH + 1), "words of a list");
_Static_assert(RINGS_FILE_BYTES(9) == HEAD + BOND * 9, "bytes of a file");

/* The refusals by their numbers. */
_Static_assert(RINGS_ACCEPTED == 0, "RINGS_ACCEPTED");
_Static_assert(RINGS_REFUSED_ATOMS == 1, "RINGS_REFUSED_ATOMS");
_Static_assert(RINGS_REFUSED_LIMIT == 2, "RINGS_REFUSED_LIMIT");
_Static_assert(RINGS_REFUSED_ALLOWANCE == 3, "RINGS_REFUSED_ALLOWANCE");
_Static_assert(RINGS_REFUSED_TABLE == 4, "RINGS_REFUSED_TABLE");
_Static_assert(RINGS_REFUSED_DISTANCE == 5, "RINGS_REFUSED_DISTANCE");
_Static_assert(RINGS_REFUSED_RENUMBERING == 6, "RINGS_REFUSED_RENUMBERING");
_Static_assert(RINGS_REFUSED_WORD == 7, "RINGS_REFUSED_WORD");
_Static_assert(RINGS_REFUSED_AFTER_FREE == 8, "RINGS_REFUSED_AFTER_FREE");
_Static_assert(RINGS_REFUSED_OWN == 9, "RINGS_REFUSED_OWN");
_Static_assert(RINGS_REFUSED_ORDER == 10, "RINGS_REFUSED_ORDER");
_Static_assert(RINGS_REFUSED_UNANSWERED == 11, "RINGS_REFUSED_UNANSWERED");
_Static_assert(RINGS_REFUSED_TOO_MANY == 12, "RINGS_REFUSED_TOO_MANY");
_Static_assert(RINGS_REFUSED_LIST == 13, "RINGS_REFUSED_LIST");
_Static_assert(RINGS_REFUSED_RING_LENGTH == 14, "RINGS_REFUSED_RING_LENGTH");
_Static_assert(RINGS_REFUSED_RING_ATOM == 15, "RINGS_REFUSED_RING_ATOM");
_Static_assert(RINGS_REFUSED_RING_TWICE == 16, "RINGS_REFUSED_RING_TWICE");
_Static_assert(RINGS_REFUSED_RING_BOND == 17, "RINGS_REFUSED_RING_BOND");
_Static_assert(RINGS_REFUSED_NAME == 18, "RINGS_REFUSED_NAME");
_Static_assert(RINGS_REFUSED_SHORT_FILE == 19, "RINGS_REFUSED_SHORT_FILE");
_Static_assert(RINGS_REFUSED_MARK == 20, "RINGS_REFUSED_MARK");
_Static_assert(RINGS_REFUSED_VERSION == 21, "RINGS_REFUSED_VERSION");
_Static_assert(RINGS_REFUSED_FILE_ATOMS == 22, "RINGS_REFUSED_FILE_ATOMS");
_Static_assert(RINGS_REFUSED_FILE_BONDS == 23, "RINGS_REFUSED_FILE_BONDS");
_Static_assert(RINGS_REFUSED_FILE_LENGTH == 24, "RINGS_REFUSED_FILE_LENGTH");
_Static_assert(RINGS_REFUSED_READ_TABLE == 25, "RINGS_REFUSED_READ_TABLE");
_Static_assert(RINGS_REFUSED_FILE_BOND == 26, "RINGS_REFUSED_FILE_BOND");
_Static_assert(RINGS_REFUSED_NINTH_BOND == 27, "RINGS_REFUSED_NINTH_BOND");
_Static_assert(RINGS_REFUSED_FILE_BUFFER == 28, "RINGS_REFUSED_FILE_BUFFER");
_Static_assert(RINGS_REFUSED_MOLFILE_LINE == 29, "RINGS_REFUSED_MOLFILE_LINE");
_Static_assert(RINGS_REFUSED_MOLFILE_MARK == 30, "RINGS_REFUSED_MOLFILE_MARK");
_Static_assert(RINGS_REFUSED_NUMBER_COLUMN == 31, "RINGS_REFUSED_NUMBER_COLUMN");
_Static_assert(RINGS_REFUSED_MOLFILE_BOND == 32, "RINGS_REFUSED_MOLFILE_BOND");
_Static_assert(RINGS_REFUSED_MOLFILE_BOND == LAST_REFUSAL, "the last refusal");
