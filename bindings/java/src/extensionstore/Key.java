package extensionstore;

import java.util.Objects;

/**
 * A name that remembers its number, so that a look-up takes no hash of it and looks into no table. In each call of any store it stands for its name:
 * {@code store.get(Key.of("server"))} finds what {@code store.get("server")} finds; a creator is given the key. It is made once for many calls, as a
 * constant, and any thread may use it. It remembers the namespace and the store by which it was used last, and keeps of them the namespace alone.
 */
public final class Key {
    private final Object space; // null of a name alone
    private final Object name;
    private final int hash;
    private Key last; // in a space; threads may lose what others remember
    private Numbered numbered;

    /** The number of a key in the store that has this serial number. */
    record Numbered(long store, int number) {}

    private Key(Object space, Object name) {
        this.space = space;
        this.name = name;
        hash = 31 * Objects.hashCode(space) + name.hashCode();
    }

    /**
     * The key of this name.
     *
     * @param name anything that may be a key; of one that is a {@code Key} the answer is this
     */
    public static Key of(Object name) {
        return name instanceof Key key ? key : new Key(null, Objects.requireNonNull(name, "key"));
    }

    /** The key in a namespace of any kind, for a class that has stores of its own over these. Equal of equal keys and namespaces. */
    public static Key in(Object space, Object key) {
        return key instanceof Key known ? known.in(space) : new Key(Objects.requireNonNull(space, "space"), Objects.requireNonNull(key, "key"));
    }

    private Key in(Object wanted) {
        Key known = last;
        if (known == null || known.space != wanted && !known.space.equals(wanted)) {
            known = new Key(Objects.requireNonNull(wanted, "space"), space == null ? name : this);
            last = known;
        }
        return known;
    }

    /** What the store remembered here last; null where that was another, or nothing. */
    Numbered numberIn(long store) {
        Numbered known = numbered;
        return known != null && known.store() == store ? known : null;
    }

    void remember(Numbered known) {
        numbered = known;
    }

    @Override
    public boolean equals(Object other) {
        return this == other || other instanceof Key that && hash == that.hash && Objects.equals(space, that.space) && name.equals(that.name);
    }

    @Override
    public int hashCode() {
        return hash;
    }

    /** The name, as in messages. */
    @Override
    public String toString() {
        return name.toString();
    }
}
