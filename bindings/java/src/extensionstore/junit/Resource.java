package extensionstore.junit;

import extensionstore.CloseableResource;
import java.util.concurrent.atomic.AtomicBoolean;
import org.junit.jupiter.api.extension.ExtensionContext;

/**
 * What stands in the proved store for a resource, and in JUnit's own store, too, since before it can be found. JUnit closes what stands in its store the latest
 * first; so each resource is closed in its turn among those of both stores.
 */
final class Resource implements ExtensionContext.Store.CloseableResource, AutoCloseable { // both: JUnit 5.13 warns of the first alone
    private final Own own;
    private final Object value;
    private final AtomicBoolean isToBeClosed = new AtomicBoolean();

    Resource(Own own, Object value) {
        this.own = own;
        this.value = value;
    }

    Object value() {
        return value;
    }

    /** The close of one that remained when its context was sealed. The others are those of whoever replaced or removed them. */
    CloseableResource remaining() {
        isToBeClosed.set(true);
        return this::closeOnce;
    }

    /** By JUnit. The first resource of a context that is closed seals it. */
    @Override
    public void close() {
        own.seal();
        closeOnce();
    }

    private void closeOnce() {
        if (isToBeClosed.getAndSet(false)) {
            try {
                if (value instanceof ExtensionContext.Store.CloseableResource resource) {
                    resource.close();
                } else {
                    ((AutoCloseable) value).close();
                }
            } catch (Throwable fault) {
                throw Resource.<RuntimeException>asItIs(fault);
            }
        }
    }

    @SuppressWarnings("unchecked")
    private static <T extends Throwable> RuntimeException asItIs(Throwable fault) throws T {
        throw (T) fault;
    }
}
