/* fake_core.h: a core for tests of the layer, which does what a line says.
 *
 * The image of a volume begins with FAKE_MAGIC. An image whose next byte is FAKE_LOG has a log, which an opening brings home: it lists two writes with a sync
 * behind each. A line is words between semicolons, each done in turn:
 *
 *     w AT LEN BYTE   writes LEN times a byte, told as two digits, at a place
 *     s               syncs
 *     r AT LEN        replies `ok` and the bytes at a place, as digits
 *     t LEN           replies `ok`, a space and LEN times the letter x
 *     z               replies `ok`, a zero byte and `z`
 *     l               replies `ok` and how many calls are listed
 *     n NUMBER        replies `no NUMBER`, and answers the number
 *     f CODE          answers a fault, behind what was listed before
 *
 * A line without words has no reply; another one without r, t, z, l, n and f is replied `ok`.
 */
#ifndef FAKE_CORE_H
#define FAKE_CORE_H

#include "exsm.h"

#define FAKE_MAGIC "FAKEVOL1"
#define FAKE_MAGIC_LEN 8
#define FAKE_LOG 'L'
#define FAKE_NO_LOG '-'

/* The part that an image without the magic fails in. */
#define FAKE_PART EXSM_PART_CATALOG

/* What it knows of each call that wasn't done. */
#define FAKE_NEED 77

#endif
