package later;

import extensionstore.junit.ProvedStore;
import java.lang.reflect.Method;
import java.util.Arrays;
import java.util.function.Function;
import org.junit.jupiter.api.Assertions;
import org.junit.jupiter.api.Test;
import org.junit.jupiter.api.extension.BeforeEachCallback;
import org.junit.jupiter.api.extension.ExtendWith;
import org.junit.jupiter.api.extension.ExtensionContext;
import org.junit.jupiter.api.extension.ExtensionContext.Namespace;
import org.junit.jupiter.api.extension.ExtensionContext.Store;

/** {@code computeIfAbsent} through JUnit's own interface, which has it since JUnit 6, as the property {@code has.compute} tells. */
@ExtendWith(LaterCallsTests.Asking.class)
class LaterCallsTests {
    static class Asking implements BeforeEachCallback {
        @Override
        public void beforeEach(ExtensionContext context) throws ReflectiveOperationException {
            long calls = Arrays.stream(Store.class.getMethods()).filter(it -> it.getName().equals("computeIfAbsent")).count();
            Assertions.assertEquals(Boolean.getBoolean("has.compute") ? 3 : 0, calls);
            if (calls > 0) {
                asks(ProvedStore.of(context, Namespace.GLOBAL));
            }
        }

        private static void asks(Store store) throws ReflectiveOperationException {
            Method ofAny = Store.class.getMethod("computeIfAbsent", Object.class, Function.class);
            Method ofType = Store.class.getMethod("computeIfAbsent", Object.class, Function.class, Class.class);
            Method made = Store.class.getMethod("computeIfAbsent", Class.class);
            Function<Object, Object> creator = key -> key + "!";
            store.put("key", null);
            Assertions.assertEquals("key!", ofAny.invoke(store, "key", creator));
            Assertions.assertEquals("key!", ofType.invoke(store, "key", creator, String.class));
            Assertions.assertEquals("other!", ofType.invoke(store, "other", creator, String.class));
            Assertions.assertSame(made.invoke(store, StringBuilder.class), store.get(StringBuilder.class));
        }
    }

    @Test
    void asks() {}
}
