import java.nio.channels.FileChannel;
import java.nio.file.Files;
import java.nio.file.Path;
import java.nio.file.StandardCopyOption;
import java.nio.file.StandardOpenOption;
import java.util.concurrent.Callable;

/** A text that the JVMs of a run make once, in a folder of the run. */
final class SharedText {
    /** The text of a name. Whichever JVM comes first makes it, and the others wait. Call it in a creator of the store. */
    static String compute(Path folder, String name, Callable<String> make) {
        synchronized ("SharedText") { // one object in the whole JVM: the lock of the system is of all its class loaders
            return held(folder, name, make);
        }
    }

    private static String held(Path folder, String name, Callable<String> make) {
        Path value = folder.resolve(name);
        try (FileChannel lock = FileChannel.open(folder.resolve(name + ".lock"), StandardOpenOption.CREATE, StandardOpenOption.WRITE)) {
            lock.lock(); // the system gives it back if this JVM dies
            if (!Files.exists(value)) {
                Path part = folder.resolve(name + ".part");
                Files.writeString(part, make.call());
                Files.writeString(folder.resolve("texts.order"), "\n" + name + "\n", StandardOpenOption.CREATE, StandardOpenOption.APPEND);
                Files.move(part, value, StandardCopyOption.ATOMIC_MOVE);
            }
            return Files.readString(value);
        } catch (RuntimeException why) {
            throw why;
        } catch (Exception why) {
            throw new IllegalStateException("the shared text " + name + " is not to be had", why);
        }
    }
}
