/**
 * Transactions of many agents on one state in memory, with a journal that can be checked. {@link
 * folugben.Storage} is where to begin.
 *
 * <p><b>Which library is loaded.</b> {@code -Dfolugben.library=PATH} names a library by its path or
 * its name. Without it JNA searches {@code jna.library.path} if that is set, otherwise the jar,
 * {@code LD_LIBRARY_PATH} and the system's folders, in this order. A library of another version
 * throws an UnsatisfiedLinkError. The jar's copy is deleted once it is loaded.
 *
 * <p>The calls of a step bypass JNA through {@code libfolugben_quick.so}, which is in the jar and in
 * {@code bindings/out}. If it is missing, or has another version, all calls go through JNA and take
 * longer. The same holds for a class loader that shares {@code libfolugben_quick.so} with another
 * loader, but has a {@code libfolugben} of its own.
 *
 * <p><b>Class loaders.</b> If JNA is in a parent of the class loader of these classes, it holds that
 * loader until the methods of {@code folugben.Calls} are unregistered. Before you drop such a loader
 * {@code own}, call
 *
 * <pre>{@code
 * Native.unregister(Class.forName("folugben.Calls", false, own));
 * }</pre>
 *
 * <p><b>Stack.</b> A thread that makes calls needs a stack of 256 KiB. The library takes less than
 * 40 KiB of it, or up to 60 KiB for a refused text that is nested deeper than any form. If a thread
 * is stopped or runs out of stack within a call, its agent's steps stay in order. A gathered {@link
 * folugben.Move} then refuses calls until it is cleared.
 */
package folugben;
