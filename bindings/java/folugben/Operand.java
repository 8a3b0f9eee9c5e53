package folugben;

import java.util.Objects;

/** An element as calls take it: its kind, its number and its bytes. */
record Operand(int kind, long number, byte[] bytes) {
    private static final byte[] NONE = {};

    static Operand of(Element element) {
        if (Objects.requireNonNull(element, "element") instanceof Element.Num num)
            return new Operand(Room.NUM, num.value(), NONE);
        if (element instanceof Element.Bool bool)
            return new Operand(Room.BOOL, bool.value() ? 1 : 0, NONE);
        if (element instanceof Element.Text text)
            return new Operand(Room.STRING, 0, Texts.utf8(text.value(), "text"));
        if (element instanceof Element.Undef)
            return new Operand(Room.UNDEF, 0, NONE);
        return new Operand(Room.LIST, 0, Texts.utf8(element.json(), "element"));
    }
}
