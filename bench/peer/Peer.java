import java.nio.file.Files;
import java.nio.file.Path;
import java.util.List;
import java.util.stream.Collectors;
import java.util.stream.Stream;
import org.objectweb.asm.ClassReader;
import org.objectweb.asm.ClassWriter;
import org.objectweb.asm.tree.ClassNode;
import org.objectweb.asm.tree.MethodNode;
import org.objectweb.asm.tree.analysis.Analyzer;
import org.objectweb.asm.tree.analysis.BasicVerifier;

/** Reads each class file of a folder, analyses its methods with types, and writes it again: what bench/convert compares with. */
public final class Peer {
    public static void main(String[] words) throws Exception {
        Path to = Files.createTempDirectory("peer-");
        List<Path> files;
        try (Stream<Path> found = Files.list(Path.of(words[0]))) {
            files = found.sorted().collect(Collectors.toList());
        }
        for (Path file : files) {
            ClassNode node = new ClassNode();
            new ClassReader(Files.readAllBytes(file)).accept(node, ClassReader.SKIP_FRAMES);
            for (MethodNode method : node.methods) {
                new Analyzer<>(new BasicVerifier()).analyze(node.name, method);
            }
            ClassWriter written = new ClassWriter(0);
            node.accept(written);
            Files.write(to.resolve(file.getFileName()), written.toByteArray());
        }
        for (Path file : files) {
            Files.delete(to.resolve(file.getFileName()));
        }
        Files.delete(to);
    }
}
