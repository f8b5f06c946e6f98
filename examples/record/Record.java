// Records the calls of threads on a file system of java.nio.file, and writes a history of each round, of which an order is found:
//
//     examples/record/record java 1 | atomfs linearize --many
//     examples/record/record java 3 | atomfs linearize --many
//
// The words are how many threads make calls at once, 3; how many histories are recorded, 2000; and a seed, 0. One thread
// comes first: what nothing explains there is another kind of tree, and no race. Debian has Jimfs as libjimfs-java. To record
// a file system of your own, hand it to `new Recorder` in the place of Jimfs.

import com.google.common.jimfs.Configuration;
import com.google.common.jimfs.Jimfs;
import java.io.IOException;
import java.nio.file.*;
import java.nio.file.attribute.BasicFileAttributes;
import java.util.*;
import java.util.concurrent.*;
import java.util.concurrent.atomic.AtomicLong;

public class Record {
    // `delete` removes both kinds, so directories and files have other names here, and a call on each is of its kind.
    static final String[] DIRECTORIES = {"/a", "/a/b"}, FILES = {"/x", "/a/y"};

    /** Makes drawn calls, each after a drawn moment. */
    static void work(Recorder recorder, int seat, Random draw) {
        for (int at = 0; at < 4; at++) {
            long until = System.nanoTime() + draw.nextInt(20_000);
            while (System.nanoTime() < until) Thread.onSpinWait();
            String directory = DIRECTORIES[draw.nextInt(2)], file = FILES[draw.nextInt(2)];
            switch (draw.nextInt(5)) {
                case 0 -> recorder.call(seat, "mkdir", directory, path -> Recorder.done(Files.createDirectory(path)));
                case 1 -> recorder.call(seat, "rmdir", directory, path -> { Files.delete(path); return "ok"; });
                case 2 -> recorder.call(seat, "mknod", file, path -> Recorder.done(Files.createFile(path)));
                case 3 -> recorder.call(seat, "unlink", file, path -> { Files.delete(path); return "ok"; });
                default -> recorder.call(seat, "stat", draw.nextBoolean() ? directory : file, Recorder::stat);
            }
        }
    }

    public static void main(String[] words) throws Exception {
        int threads = words.length > 0 ? Integer.parseInt(words[0]) : 3;
        int rounds = words.length > 1 ? Integer.parseInt(words[1]) : 2_000;
        Random draw = new Random(words.length > 2 ? Long.parseLong(words[2]) : 0);
        ExecutorService pool = Executors.newFixedThreadPool(threads);
        for (int round = 0; round < rounds; round++) {
            try (FileSystem files = Jimfs.newFileSystem(Configuration.unix())) {
                Recorder recorder = new Recorder(files);
                List<Callable<Void>> all = new ArrayList<>();
                for (int seat = 0; seat < threads; seat++) {
                    int own = seat;
                    Random drawn = new Random(draw.nextLong());
                    all.add(() -> { work(recorder, own, drawn); return null; });
                }
                for (Future<Void> each : pool.invokeAll(all)) each.get();
                System.out.println("atomfs-journal 1");
                recorder.entries.values().forEach(System.out::println);
            }
        }
        pool.shutdown();
    }
}

/** Numbers the begins and the returns of calls on a file system by one counter. Each seat is one thread's. */
class Recorder {
    interface Made {
        String call(Path path) throws IOException;
    }

    final FileSystem files;
    final AtomicLong counter = new AtomicLong();
    final Map<Long, String> entries = new ConcurrentSkipListMap<>();

    Recorder(FileSystem files) {
        this.files = files;
    }

    /** Makes a call on a path and records it, with the reply that it spells. `?` fits any error. */
    void call(int seat, String name, String path, Made made) {
        long begun = counter.incrementAndGet();
        String reply;
        try {
            reply = made.call(files.getPath(path));
        } catch (NoSuchFileException error) {
            reply = "failed ENOENT";
        } catch (FileAlreadyExistsException error) {
            reply = "failed EEXIST";
        } catch (DirectoryNotEmptyException error) {
            reply = "failed ENOTEMPTY";
        } catch (IOException error) {
            reply = "failed ?";
        }
        long returned = counter.incrementAndGet();
        entries.put(begun, "begin " + begun + " " + seat + " " + name + " " + path);
        entries.put(returned, "return " + begun + " " + reply);
    }

    static String stat(Path path) throws IOException {
        BasicFileAttributes found = Files.readAttributes(path, BasicFileAttributes.class);
        return found.isDirectory() ? "stat dir ?" : "stat file " + found.size();
    }

    static String done(Path path) {
        return "ok";
    }
}
