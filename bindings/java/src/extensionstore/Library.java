package extensionstore;

import java.io.IOException;
import java.io.InputStream;
import java.nio.file.Files;
import java.nio.file.InvalidPathException;
import java.nio.file.Path;
import java.nio.file.StandardCopyOption;
import java.util.Locale;

/** Loads the native library: that of the property {@code extensionstore.library}, or that in the jar for this machine, or one of {@code java.library.path}. */
final class Library {
    private static final String GIVEN = "extensionstore.library";

    /** That of these classes, as the library tells its own. */
    private static final int VERSION = 100;

    /** Why there is none that fits; null where it is loaded. */
    static final String MISSING = load();

    private Library() {}

    private static String load() {
        String given = System.getProperty(GIVEN);
        String inJar = "META-INF/native/" + machine() + "/libextension_store.so";
        try (InputStream found = Library.class.getResourceAsStream("/" + inJar)) {
            if (given != null) {
                loadGiven(Path.of(given));
            } else if (found != null) {
                loadCopy(found);
            } else {
                System.loadLibrary("extension_store");
            }
            int version = Native.version();
            return version == VERSION ? null : "the native library is of version " + text(version) + ", and these classes of " + text(VERSION);
        } catch (IOException | UnsatisfiedLinkError | InvalidPathException fault) {
            String what = given == null ? "for this machine, " + inJar + "," : given;
            String instead = "; the property " + GIVEN + " may name its file, as where no code may run in " + System.getProperty("java.io.tmpdir");
            return "the native library " + what + " is not loaded: " + fault.getMessage() + (given == null ? instead : "");
        }
    }

    private static String text(int version) {
        return version / 10_000 + "." + version / 100 % 100 + "." + version % 100;
    }

    // The virtual machine loads a file for one class loader alone.
    private static void loadGiven(Path file) throws IOException {
        try {
            System.load(file.toString());
        } catch (UnsatisfiedLinkError fault) {
            if (!String.valueOf(fault.getMessage()).contains("another classloader")) {
                throw fault;
            }
            try (InputStream again = Files.newInputStream(file)) {
                loadCopy(again);
            }
        }
    }

    private static String machine() {
        String system = System.getProperty("os.name").toLowerCase(Locale.ROOT).replace(' ', '_');
        String processor = System.getProperty("os.arch");
        return system + "-" + (processor.equals("amd64") ? "x86_64" : processor);
    }

    // A library is loaded from a file of its own, which may be deleted then.
    private static void loadCopy(InputStream library) throws IOException {
        Path file = Files.createTempFile("extension_store", ".so");
        try {
            Files.copy(library, file, StandardCopyOption.REPLACE_EXISTING);
            System.load(file.toString());
        } finally {
            Files.delete(file);
        }
    }
}
