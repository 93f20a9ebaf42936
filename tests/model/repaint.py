"""The repaint of the model's state, by docs/SPECIFICATION.md, 'Repaint'."""
from terminal import ANSI_MODES, ATTRIBUTES, BLANK, PRIVATE_MODES, SETS, SET_AT_POWER_UP, SPECIAL, Brush, Saved, Sets, Terminal

SPELLING_SETS = b"\033(B\033*<\033+0\017"
SUPPLEMENTAL_CODES = {glyph: code for code, glyph in reversed(SETS["<"].items())}
SPECIAL_CODES = {glyph: code for code, glyph in SPECIAL.items()}


def csi(*values, final):
    return b"\033[" + ";".join(map(str, values)).encode() + final.encode()


def spelling(glyph):
    if glyph.isascii():
        return glyph.encode()
    if glyph in SUPPLEMENTAL_CODES:
        return b"\033N" + bytes([SUPPLEMENTAL_CODES[glyph]])
    return b"\033O" + bytes([SPECIAL_CODES[glyph]])


def brush_bytes(brush: Brush):
    numbers = [number for number, name in ATTRIBUTES.items() if getattr(brush, name)]
    return csi(0, *numbers, final="m") + csi(int(brush.protected), final='"q')


def sets_bytes(sets: Sets):
    designations = b"".join(b"\033" + b"()*+"[slot:slot + 1] + final.encode() for slot, final in enumerate(sets.designated))
    return designations + (b"\017", b"\016", b"\033n", b"\033o")[sets.left] + (b"", b"\033~", b"\033}", b"\033|")[sets.right]


def stops_bytes(terminal):
    size = terminal.size
    has_widths, is_wide = size.narrow != size.wide, terminal.width == size.wide
    wide, narrow = (b"\033[?3h", b"\033[?3l") if has_widths else (b"", b"")
    if terminal.stops == terminal.usual_stops():
        return wide if is_wide else b""
    made = wide + b"\033[3g" + b"".join(csi(1, stop, final="H") + b"\033H" for stop in sorted(terminal.stops))
    return made + (b"" if is_wide else narrow)


def saved_bytes(saved: Saved):
    if saved == Saved():
        return b""
    made = b"\033[?6h" if saved.origin else b""
    made += csi(saved.row, saved.column, final="H") + (b" " if saved.wrap else b"")
    made += brush_bytes(saved.brush) + sets_bytes(saved.sets) + b"\0337"
    return made + (b"\033[?6l" if saved.origin else b"")


def cells_bytes(terminal, wrap):
    blank = [BLANK] * terminal.width
    if not wrap and all(line == blank for line in terminal.cells):
        return b""
    return SPELLING_SETS + b"".join(row_bytes(row, line) for row, line in enumerate(terminal.cells, 1) if line != blank)


def row_bytes(row, line):
    pieces, left = [], BLANK
    for column, cell in enumerate(line, 1):
        if cell != BLANK:
            if column == 1 or left == BLANK or left[1] != cell[1]:
                pieces.append(csi(row, column, final="H") + brush_bytes(cell[1]))
            pieces.append(spelling(cell[0]))
        left = cell
    return b"".join(pieces)


def cursor_bytes(terminal, column, wrap):
    made = csi(terminal.row - terminal.origin() + 1, column, final="H")
    if wrap:
        glyph, brush = terminal.cells[terminal.row - 1][terminal.column - 1]
        made += brush_bytes(brush) + spelling(glyph)
    return made


def modes_bytes(terminal):
    made = b""
    for names, marker in ((ANSI_MODES, ""), (PRIVATE_MODES, "?")):
        for number, name in sorted(names.items()):
            is_set = name in terminal.modes
            if name != "DECOM" and is_set != (name in SET_AT_POWER_UP):
                made += f"\033[{marker}{number}{'h' if is_set else 'l'}".encode()
    return made + (b"\033=" if terminal.keypad else b"") + (b"\033 G" if terminal.eight_bit else b"")


def items(terminal, column, wrap, sides=b""):
    """Returns the items after RIS. The column is the one that CUP names. Left and right margins are set after the other margins."""
    return b"".join([
        stops_bytes(terminal),
        saved_bytes(terminal.saved),
        cells_bytes(terminal, wrap),
        b"" if (terminal.top, terminal.bottom) == (1, terminal.size.rows) else csi(terminal.top, terminal.bottom, final="r"),
        sides,
        b"\033[?6h" if "DECOM" in terminal.modes else b"",
        cursor_bytes(terminal, column, wrap),
        brush_bytes(terminal.brush),
        sets_bytes(terminal.sets),
        modes_bytes(terminal),
        {None: b"", 2: b"\033N", 3: b"\033O"}[terminal.single_shift],
    ])


def repaint(terminal):
    """Returns the repaint of a terminal that is between sequences."""
    return b"\033c" + items(terminal, terminal.column, terminal.wrap_flag())


def session_repaint(session):
    """Returns the repaint under TERM=xterm, of both pages."""
    other = Terminal(session.size)
    other.cells, other.saved, other.width = session.other_cells, session.other_saved, len(session.other_cells[0])
    return b"".join([
        b"\033[?40h\033c",
        switch(47, not session.is_alternate),
        items(other, other.column, other.wrap),
        switch(47, session.is_alternate),
        switch(3, False),
        items(session, session.column - (session.left() - 1 if "DECOM" in session.modes else 0), session.wrap, sides_bytes(session)),
        switch(40, session.allows_columns),
        switch(2004, True) if session.paste else b"",
    ])


def sides_bytes(session):
    return switch(69, True) + csi(*session.sides, final="s") if session.sides else b""


def switch(mode, is_set):
    return b"\033[?%d%c" % (mode, b"lh"[is_set])
