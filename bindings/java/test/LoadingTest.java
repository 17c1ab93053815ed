import java.io.File;
import java.net.MalformedURLException;
import java.net.URL;
import java.net.URLClassLoader;
import java.util.ArrayList;
import java.util.List;
import java.util.Optional;

/** How the native library is loaded. */
final class LoadingTest {
    void loadsOnceMoreForAnotherClassLoader() throws Exception {
        for (int time = 0; time < 2; time++) {
            try (URLClassLoader loader = new URLClassLoader(classPath(), ClassLoader.getPlatformClassLoader())) {
                Object why = loader.loadClass("extensionstore.Contexts").getMethod("unavailable").invoke(null);
                OverContexts.equal(why, Optional.empty());
            }
        }
    }

    private static URL[] classPath() throws MalformedURLException {
        List<URL> urls = new ArrayList<>();
        for (String part : System.getProperty("java.class.path").split(File.pathSeparator)) {
            urls.add(new File(part).toURI().toURL());
        }
        return urls.toArray(URL[]::new);
    }
}
