package jcache.jsr107;

import java.io.IOException;
import java.io.InputStream;
import java.nio.file.Files;
import java.nio.file.LinkOption;
import java.nio.file.Path;
import java.nio.file.StandardCopyOption;
import java.nio.file.attribute.PosixFilePermissions;
import java.security.MessageDigest;
import java.security.NoSuchAlgorithmException;
import java.util.Arrays;
import java.util.HexFormat;
import javax.cache.CacheException;

/**
 * Loads the native library out of the jar. It is unpacked once, under its checksum, into the folder that the system
 * property {@code jcache.native.folder} names, else into one of this user's own in {@code java.io.tmpdir}.
 */
final class NativeLibrary {
    private static final String RESOURCE = "linux-x86-64/libjcache_jsr107.so";

    private static boolean isLoaded;

    private NativeLibrary() {}

    /** Loads it, once. A CacheException where that can't be; then the next one tries again. */
    static synchronized void load() {
        if (isLoaded) {
            return;
        }
        String system = System.getProperty("os.name") + " " + System.getProperty("os.arch");
        if (!system.equals("Linux amd64")) {
            throw new CacheException("jcache is for Linux on x86-64, and this is " + system);
        }
        try {
            Path folder = folder();
            makePrivate(folder);
            load(folder, resource());
            isLoaded = true;
        } catch (IOException | UnsatisfiedLinkError e) {
            throw new CacheException("jcache's native library can't be unpacked to and run from " + folder() + ": "
                    + e.getMessage() + "; the system property jcache.native.folder names another folder", e);
        }
    }

    /** The file is one for all, but each class loader of a process has to have one of its own. */
    private static void load(Path folder, byte[] bytes) throws IOException {
        try {
            System.load(unpacked(folder, bytes).toString());
        } catch (UnsatisfiedLinkError e) {
            if (!e.getMessage().contains("already loaded in another classloader")) {
                throw e;
            }
            Path own = Files.createTempFile(folder, "own", ".so");
            try {
                Files.write(own, bytes);
                System.load(own.toString());
            } finally {
                Files.delete(own);
            }
        }
    }

    private static Path folder() {
        String named = System.getProperty("jcache.native.folder");
        return named != null ? Path.of(named).toAbsolutePath()
                : Path.of(System.getProperty("java.io.tmpdir"), "jcache-" + System.getProperty("user.name"))
                        .toAbsolutePath();
    }

    private static Path unpacked(Path folder, byte[] bytes) throws IOException {
        Path file = folder.resolve("libjcache_jsr107-" + checksum(bytes) + ".so");
        if (!Files.isRegularFile(file, LinkOption.NOFOLLOW_LINKS) || !Arrays.equals(Files.readAllBytes(file), bytes)) {
            Path made = Files.createTempFile(folder, "unpacking", ".so");
            try {
                Files.write(made, bytes);
                Files.move(made, file, StandardCopyOption.ATOMIC_MOVE);
            } finally {
                Files.deleteIfExists(made);
            }
        }
        return file;
    }

    /** A folder of this user's that no one else may write. */
    private static void makePrivate(Path folder) throws IOException {
        if (!Files.isDirectory(folder)) {
            Files.createDirectories(folder,
                    PosixFilePermissions.asFileAttribute(PosixFilePermissions.fromString("rwx------")));
        }
        boolean isOurs = Files.getOwner(folder).equals(Files.getOwner(Path.of("/proc/self")));
        String permissions = PosixFilePermissions.toString(Files.getPosixFilePermissions(folder));
        if (!isOurs || permissions.charAt(4) == 'w' || permissions.charAt(7) == 'w') {
            throw new IOException(folder + " is not this user's alone to write");
        }
    }

    private static byte[] resource() throws IOException {
        try (InputStream in = NativeLibrary.class.getResourceAsStream(RESOURCE)) {
            if (in == null) {
                throw new IOException("the jar lacks " + RESOURCE);
            }
            return in.readAllBytes();
        }
    }

    private static String checksum(byte[] bytes) {
        try {
            return HexFormat.of().formatHex(MessageDigest.getInstance("SHA-256").digest(bytes), 0, 16);
        } catch (NoSuchAlgorithmException e) {
            throw new IllegalStateException(e);
        }
    }
}
