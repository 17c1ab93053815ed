import extensionstore.junit.ProvedStore;
import java.nio.file.Path;
import org.junit.jupiter.api.Assertions;
import org.junit.jupiter.api.Test;
import org.junit.jupiter.api.extension.ExtendWith;
import org.junit.jupiter.api.extension.ExtensionContext;
import org.junit.jupiter.api.extension.ExtensionContext.Namespace;
import org.junit.jupiter.api.extension.ParameterContext;
import org.junit.jupiter.api.extension.ParameterResolver;

/** A test of a fork: its store has the text of the server that all forks of the run share. */
@ExtendWith(ServerTests.Servers.class)
class ServerTests {
    static class Servers implements ParameterResolver {
        private static final Namespace NAMESPACE = Namespace.create(Servers.class);
        private static final Path FOLDER = Path.of(System.getenv("RUN"));

        private static String start() throws Exception {
            return Long.toString(new ProcessBuilder("sleep", "300").start().pid()); // the server
        }

        @Override
        public boolean supportsParameter(ParameterContext parameter, ExtensionContext context) {
            return parameter.getParameter().getType() == String.class;
        }

        @Override
        public Object resolveParameter(ParameterContext parameter, ExtensionContext context) {
            return ProvedStore.of(context.getRoot(), NAMESPACE)
                    .getOrComputeIfAbsent("server", key -> SharedText.compute(FOLDER, key, Servers::start), String.class);
        }
    }

    @Test
    void answers(String server) {
        Assertions.assertTrue(ProcessHandle.of(Long.parseLong(server)).orElseThrow().isAlive());
    }
}
