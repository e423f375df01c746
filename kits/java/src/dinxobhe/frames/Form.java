package dinxobhe.frames;

import java.util.ArrayList;
import java.util.List;
import java.util.Optional;

/**
 * How the values of one type are spelled as a field of a frame.
 *
 * @param <T> the type
 */
interface Form<T> {
    /** How deep mirrors and values may be nested, counted together. */
    int MOST_NESTED = 256;

    T read(FieldReader from) throws BadFrame;

    void write(T value, FieldWriter to);

    Form<Integer> U16 = of(FieldReader::u16, (value, to) -> to.u16(value));
    Form<Long> U32 = of(FieldReader::u32, (value, to) -> to.u32(value));
    Form<Boolean> BOOL = of(FieldReader::bool, (value, to) -> to.bool(value));
    Form<String> TEXT = of(FieldReader::text, (value, to) -> to.text(value));
    Form<byte[]> BYTES = of(FieldReader::bytes, (value, to) -> to.bytes(value));
    Form<List<String>> TEXTS = list(TEXT);

    /** A constant of an enum, by its number in the order of declaration. */
    static <E extends Enum<E>> Form<E> choice(Class<E> of) {
        E[] constants = of.getEnumConstants();
        return of(from -> constants[from.choice(constants.length)], (value, to) -> to.u8(value.ordinal()));
    }

    static <T> Form<List<T>> list(Form<T> item) {
        return of(from -> {
            long count = from.u32();
            List<T> items = new ArrayList<>();
            while (items.size() < count) {
                items.add(item.read(from));
            }
            return List.copyOf(items);
        }, (items, to) -> {
            to.u32(items.size());
            items.forEach(one -> item.write(one, to));
        });
    }

    static <T> Form<Optional<T>> optional(Form<T> item) {
        return of(from -> from.bool() ? Optional.of(item.read(from)) : Optional.empty(), (value, to) -> {
            to.bool(value.isPresent());
            value.ifPresent(one -> item.write(one, to));
        });
    }

    /** Reads a value of the form. */
    interface Read<T> {
        T from(FieldReader from) throws BadFrame;
    }

    /** Writes a value of the form. */
    interface Write<T> {
        void to(T value, FieldWriter to);
    }

    static <T> Form<T> of(Read<T> read, Write<T> write) {
        return new Form<>() {
            @Override
            public T read(FieldReader from) throws BadFrame {
                return read.from(from);
            }

            @Override
            public void write(T value, FieldWriter to) {
                write.to(value, to);
            }
        };
    }
}
