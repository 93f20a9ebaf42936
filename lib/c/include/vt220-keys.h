/* vt220-keys.h: the keyboard of a DEC VT220 and that of an xterm, for C11 and C++: what each key sends to the host
 * under the terminal's modes.
 *
 * The keys are those of the VT220 Programmer Reference Manual (EK-VT220-RM), chapter 3, in VT200 mode. Under TERM=xterm
 * a few send what xterm sends (ctlseqs of xterm, 'PC-Style Function Keys'). A key is given in one of three forms, each
 * as text with its length:
 *
 * 1. One character, in UTF-8. An ASCII character sends itself, but CR is the key Return. A character of the DEC
 *    Supplemental set sends its byte of that set, A1 to FE. No key sends any other character. To a host in UTF-8 each
 *    character beyond ASCII sends itself, but a C1 control doesn't.
 *
 * 2. A name of this list: a name, another name of the same key, and what it sends. Upper and lower case are equal, and
 *    an underscore doesn't count: PrevScreen is prev_screen.
 *
 *    Main keypad:
 *      Return         Enter        CR, or CR LF if LNM is set
 *      Delete         Backspace    7F; this is the key <X] above Return
 *      Tab                         09
 *      Space                       20
 *      Escape                      1B
 *
 *    Editing keypad:
 *      Find           Home         CSI 1 ~
 *      InsertHere     Insert       CSI 2 ~
 *      Remove                      CSI 3 ~
 *      Select         End          CSI 4 ~
 *      PrevScreen     PageUp       CSI 5 ~
 *      NextScreen     PageDown     CSI 6 ~
 *
 *    Cursor keys:
 *      Up                          CSI A, or SS3 A if DECCKM is set
 *      Down                        CSI B, or SS3 B
 *      Right                       CSI C, or SS3 C
 *      Left                        CSI D, or SS3 D
 *
 *    Numeric keypad:
 *      PF1 to PF4     F1 to F4     SS3 P, SS3 Q, SS3 R, SS3 S
 *
 *      KP0 to KP9                  0 to 9, or SS3 p to SS3 y if DECKPAM is set
 *      KPMinus                     -, or SS3 m
 *      KPComma                     the comma, or SS3 l
 *      KPPeriod                    the period, or SS3 n
 *      KPEnter                     as Return, or SS3 M
 *
 *    Top row:
 *      F6 to F10                   CSI 17 ~, CSI 18 ~, CSI 19 ~, CSI 20 ~, CSI 21 ~
 *      F11 to F14                  CSI 23 ~, CSI 24 ~, CSI 25 ~, CSI 26 ~
 *      Help           F15          CSI 28 ~
 *      Do             F16          CSI 29 ~
 *
 *      F17 to F20                  CSI 31 ~, CSI 32 ~, CSI 33 ~, CSI 34 ~
 *
 *    Ctrl and the key X: C-X, or ^X. X is a letter (01 to 1A) or one of these:
 *      @ 2 and the space (00), [ 3 (1B), \ 4 (1C), ] 5 (1D), ^ 6 ~ (1E), _ 7 ? (1F), 8 (7F)
 *    As an exception ^? is 7F: it is the usual notation of DEL.
 *
 *    CSI is ESC [ and SS3 is ESC O. If S8C1T is set, CSI is the byte 9B and SS3 is the byte 8F. The keys F1 to F5 of a
 *    VT220 send nothing: they are local.
 *
 *    Under TERM=xterm these keys send something else:
 *      Find           Home         CSI H, or SS3 H if DECCKM is set
 *      Select         End          CSI F, or SS3 F
 *      F5                          CSI 15 ~
 *      F13 to F16                  CSI 1;2 P, CSI 1;2 Q, CSI 1;2 R, CSI 1;2 S: Shift with F1 to F4
 *      F17 to F20                  CSI 15;2 ~, CSI 17;2 ~, CSI 18;2 ~, CSI 19;2 ~: Shift with F5 to F8
 *
 *    There the name of a cursor key, a function key or a key of the editing keypad may begin with S-, A- and C-, in any
 *    order. Then Shift, Alt and Ctrl are held down, as in C-Left. Such a key sends CSI, its number or 1, a semicolon,
 *    the number of the modifiers, and its final byte. That number is 1, and 1 more for Shift, 2 for Alt and 4 for Ctrl.
 *    S-Tab sends CSI Z.
 *
 * 3. The sequence that a VT220 sends for a key in one of its modes with 7-bit controls, and under TERM=xterm that of an
 *    xterm, too. Modern terminals send the same sequences, and CSI H or SS3 H for Home, CSI F or SS3 F for End. So a
 *    key that was typed on such a terminal is passed on as it came, and gets the form that the program asked for.
 */
#ifndef VT220_KEYS_H
#define VT220_KEYS_H

#include "vt220.h"

#ifdef __cplusplus
extern "C" {
#endif

/* The statuses of vt220_key beyond those of vt220.h. vt220_status_text has their texts. */
#define VT220_NO_KEY 8       /* the text is neither a character, nor a key's name or sequence */
#define VT220_NO_CHARACTER 9 /* the text is a character, and no key sends it */

#define VT220_KEY_LIMIT 7    /* the most bytes that a key sends */
#define VT220_TYPED_LIMIT 16 /* the most bytes that vt220_key_length returns */

/* Writes what a key sends.
 *   language    what the host sends: VT220_BYTES, VT220_UTF8 or VT220_XTERM
 *   modes       the terminal's modes, by vt220_modes. The call reads lnm, decckm, keypad_application and reports_8bit.
 *               KAM, which locks a keyboard, is the caller's to look at.
 *   key, len    the key, in one of the three forms above
 *   out, size   the output buffer; VT220_KEY_LIMIT bytes are always enough
 *   written     receives the length; 0 if there is no such key or character
 * Returns VT220_OK, VT220_ROOM, VT220_NO_KEY or VT220_NO_CHARACTER. */
uint32_t vt220_key(uint32_t language, const vt220_mode_set *modes, const char *key, size_t len, uint8_t *out,
                   size_t size, size_t *written);

/* Finds the first key in what was typed on a modern terminal, whose input is UTF-8. The key is a character, a sequence
 * that ESC [ or ESC O begins, or another byte alone. ESC is a key by itself if nothing that follows makes it a
 * sequence, or nothing follows.
 *   typed, len   what was typed
 * Returns how many bytes the key has, so that they can be passed to vt220_key. Returns 0 if the end of the key is
 * missing, or len is 0. */
size_t vt220_key_length(const char *typed, size_t len);

#ifdef __cplusplus
}
#endif

#endif
