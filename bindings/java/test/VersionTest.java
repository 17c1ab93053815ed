import extensionstore.Contexts;

/** Prints why the native library is not taken. */
final class VersionTest {
    private VersionTest() {}

    public static void main(String[] words) {
        System.out.println(Contexts.unavailable().orElse("it is taken"));
    }
}
