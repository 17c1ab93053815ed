package org.junit.jupiter.engine.execution;

import extensionstore.CloseableResource;
import extensionstore.Context;
import extensionstore.Contexts;
import extensionstore.Limits;
import java.util.ArrayDeque;
import java.util.ArrayList;
import java.util.Arrays;
import java.util.HashMap;
import java.util.List;
import java.util.Map;
import java.util.Queue;
import java.util.concurrent.atomic.AtomicInteger;
import org.junit.jupiter.api.extension.ExtensionContext;

/**
 * A tree of contexts of a fixed shape, whose places are given out one by one. The property {@code places.shape} has how many children a context
 * has, level by level, such as {@code 6,9,3}.
 */
final class Places {
    /** How many trees were opened. */
    static final AtomicInteger OPENED = new AtomicInteger();

    private static final int[] SHAPE =
            Arrays.stream(System.getProperty("places.shape", "4,3,2").split(",")).mapToInt(Integer::parseInt).toArray();

    private final Map<Context, Queue<Context>> free = new HashMap<>();
    private Contexts contexts;

    synchronized Context root() {
        if (contexts == null) {
            List<String> ids = new ArrayList<>();
            grow("[root:0]", 0, ids);
            contexts = Contexts.open(Limits.USUAL, ids, Places::resource);
            OPENED.incrementAndGet();
            for (Context context : contexts.all()) {
                context.getParent().ifPresent(parent -> free.computeIfAbsent(parent, it -> new ArrayDeque<>()).add(context));
            }
        }
        return contexts.root();
    }

    private static CloseableResource resource(Object value) {
        return value instanceof ExtensionContext.Store.CloseableResource resource ? resource::close : null;
    }

    /** A context below this one that was not given out before. */
    synchronized Context below(Context parent) {
        Queue<Context> left = free.get(parent);
        if (left == null || left.isEmpty()) {
            throw new IllegalStateException("no place is left below " + parent.getUniqueId() + ": set places.shape");
        }
        return left.remove();
    }

    private static void grow(String id, int level, List<String> ids) {
        ids.add(id);
        for (int child = 0; level < SHAPE.length && child < SHAPE[level]; child++) {
            grow(id + "/[child:" + child + "]", level + 1, ids);
        }
    }
}
