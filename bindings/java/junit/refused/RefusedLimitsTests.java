package refused;

import extensionstore.junit.ProvedStore;
import org.junit.jupiter.api.Assertions;
import org.junit.jupiter.api.Test;
import org.junit.jupiter.api.extension.BeforeEachCallback;
import org.junit.jupiter.api.extension.ExtendWith;
import org.junit.jupiter.api.extension.ExtensionContext;
import org.junit.jupiter.api.extension.ExtensionContext.Namespace;
import org.junit.jupiter.api.extension.ExtensionContextException;

/** A configuration parameter that is out of its range is refused by its name and its value. */
@ExtendWith(RefusedLimitsTests.Asking.class)
class RefusedLimitsTests {
    static class Asking implements BeforeEachCallback {
        @Override
        public void beforeEach(ExtensionContext context) {
            String asked = context.getConfigurationParameter("extensionstore.numbers").orElseThrow();
            Exception refused = Assertions.assertThrows(ExtensionContextException.class, () -> ProvedStore.of(context, Namespace.GLOBAL));
            Assertions.assertEquals("the configuration parameter extensionstore.numbers is " + asked + ", and not 1 to 1048575", refused.getMessage());
        }
    }

    @Test
    void isTold() {}
}
