// Tells the functions, initialisers and lambdas of the Java files whose paths it reads, for bench/functions.py.
import com.sun.source.tree.*;
import com.sun.source.util.*;
import com.sun.tools.javac.code.Flags;
import com.sun.tools.javac.tree.JCTree;
import java.io.*;
import java.nio.charset.StandardCharsets;
import java.util.*;
import javax.tools.*;

public class Functions {
    public static void main(String[] words) throws Exception {
        PrintStream out = new PrintStream(System.out, false, StandardCharsets.UTF_8);
        JavaCompiler javac = ToolProvider.getSystemJavaCompiler();
        StandardJavaFileManager manager = javac.getStandardFileManager(null, null, StandardCharsets.UTF_8);
        for (String path : new BufferedReader(new InputStreamReader(System.in, StandardCharsets.UTF_8)).lines().toList()) {
            DiagnosticCollector<JavaFileObject> faults = new DiagnosticCollector<>();
            JavacTask task = (JavacTask) javac.getTask(null, manager, faults, List.of("-proc:none"), null, manager.getJavaFileObjects(path));
            for (CompilationUnitTree unit : task.parse()) {
                Walk walk = new Walk();
                walk.out = out;
                walk.path = path;
                walk.unit = unit;
                walk.places = Trees.instance(task).getSourcePositions();
                walk.scan(unit, null);
            }
            if (faults.getDiagnostics().stream().anyMatch(it -> it.getKind() == Diagnostic.Kind.ERROR)) {
                out.println(path + "\tfault");
            }
        }
        out.flush();
    }

    static class Walk extends TreeScanner<Void, Void> {
        PrintStream out;
        String path;
        CompilationUnitTree unit;
        SourcePositions places;
        final Deque<String> types = new ArrayDeque<>();

        void tell(String kind, String name, Tree tree, Tree body) {
            long first = unit.getLineMap().getLineNumber(((JCTree) tree).pos);
            long last = unit.getLineMap().getLineNumber(places.getEndPosition(unit, body) - 1);
            out.println(String.join("\t", path, kind, name, "" + first, "" + last));
        }

        @Override
        public Void visitClass(ClassTree tree, Void nothing) {
            types.push(tree.getSimpleName().toString());
            for (Tree member : tree.getMembers()) {
                if (member instanceof BlockTree) {
                    tell("initialiser", "", member, member);
                }
            }
            super.visitClass(tree, nothing);
            types.pop();
            return null;
        }

        @Override
        public Void visitMethod(MethodTree tree, Void nothing) {
            boolean isMade = tree.getName().contentEquals("<init>");
            boolean isCompact = (((JCTree.JCMethodDecl) tree).mods.flags & Flags.COMPACT_RECORD_CONSTRUCTOR) != 0;
            String name = isMade ? types.peek() : tree.getName().toString();
            if (tree.getBody() != null) {
                tell(isCompact ? "compact constructor" : isMade ? "constructor" : "method", name, tree, tree.getBody());
            } else {
                tell("method without a body", name, tree, tree);
            }
            return super.visitMethod(tree, nothing);
        }

        @Override
        public Void visitVariable(VariableTree tree, Void nothing) {
            boolean isConstant = (((JCTree.JCVariableDecl) tree).mods.flags & Flags.ENUM) != 0;
            if (isConstant && tree.getInitializer() instanceof NewClassTree made && made.getClassBody() != null) {
                tell(made.getArguments().isEmpty() ? "constant with a body" : "constant with arguments and a body", tree.getName().toString(), tree, tree);
            }
            return super.visitVariable(tree, nothing);
        }

        @Override
        public Void visitLambdaExpression(LambdaExpressionTree tree, Void nothing) {
            tell("lambda", "", tree, tree);
            return super.visitLambdaExpression(tree, nothing);
        }
    }
}
