import com.sun.jdi.*;
import com.sun.jdi.connect.*;
import com.sun.jdi.event.*;
import com.sun.jdi.request.*;
import java.util.*;
import java.util.stream.*;

/** What a debugger over JDI does first at the machine of examples/debug.json; each thing in a line, with what it threw. Of bench/jdi.py. */
public class JdiSteps {
    interface Step { Object run() throws Exception; }

    static void tell(String name, Step step) {
        String told;
        try { told = String.valueOf(step.run()); }
        catch (Throwable thrown) { told = "THREW " + thrown.getClass().getSimpleName(); }
        System.out.println(name + ": " + told);
    }

    static String place(Location at) { return at.declaringType().name() + ":" + at.lineNumber(); }

    static String value(Value value) {
        if (value instanceof StringReference) return "\"" + ((StringReference) value).value() + "\"";
        if (value instanceof ObjectReference) return "instance of " + ((ObjectReference) value).referenceType().name();
        return String.valueOf(value);
    }

    /** The next event of this kind, all threads being resumed first. */
    static <E extends Event> E next(VirtualMachine machine, Class<E> kind) throws Exception {
        machine.resume();
        for (;;) {
            EventSet events = machine.eventQueue().remove(10000);
            if (events == null) throw new IllegalStateException("no " + kind.getSimpleName());
            for (Event event : events) if (kind.isInstance(event)) return kind.cast(event);
        }
    }

    public static void main(String[] words) throws Exception {
        AttachingConnector connector = Bootstrap.virtualMachineManager().attachingConnectors().stream()
            .filter(one -> one.name().equals("com.sun.jdi.SocketAttach")).findFirst().get();
        Map<String, Connector.Argument> arguments = connector.defaultArguments();
        arguments.get("hostname").setValue("127.0.0.1");
        arguments.get("port").setValue(words[0]);
        VirtualMachine machine = connector.attach(arguments);
        EventRequestManager requests = machine.eventRequestManager();
        tell("name", machine::name);
        tell("threads", () -> machine.allThreads().stream()
            .map(t -> t.name() + "/" + t.threadGroup().name() + "/" + (t.isSuspended() ? "suspended" : "running")).collect(Collectors.joining(" ")));
        ThreadReference thread = machine.allThreads().get(0);
        tell("class of a thread", () -> thread.referenceType().name());
        tell("class of a group", () -> thread.threadGroup().referenceType().name());
        tell("groups", () -> machine.topLevelThreadGroups().get(0).threadGroups().stream().map(ThreadGroupReference::name).collect(Collectors.joining(" ")));
        tell("modules", () -> machine.allModules().size());
        ReferenceType counter = machine.classesByName("Counter").get(0);
        ReferenceType main = machine.classesByName("Main").get(0);
        tell("module of a class", () -> counter.module().name());
        tell("methods", () -> counter.methods().stream().map(m -> m.name() + "(" + String.join(", ", m.argumentTypeNames()) + ")").collect(Collectors.joining(" ")));
        tell("fields", () -> counter.fields().stream().map(Field::name).collect(Collectors.joining(" ")));
        tell("class loader", counter::classLoader);
        tell("lines of 5", () -> main.locationsOfLine(5).stream().map(JdiSteps::place).collect(Collectors.joining(" ")));
        tell("class unload", () -> {
            ClassUnloadRequest unload = requests.createClassUnloadRequest();
            unload.addClassFilter("Main*");
            unload.enable();
            unload.disable();
            return "asked";
        });
        tell("class path", () -> ((PathSearchingVirtualMachine) machine).classPath());
        BreakpointRequest breakpoint = requests.createBreakpointRequest(main.locationsOfLine(5).get(0));
        breakpoint.enable();
        tell("breakpoint", () -> place(next(machine, BreakpointEvent.class).location()));
        tell("frames", () -> thread.frames().stream().map(f -> place(f.location())).collect(Collectors.joining(" ")));
        tell("locals", () -> {
            StackFrame frame = thread.frame(0);
            StringBuilder told = new StringBuilder();
            for (LocalVariable variable : frame.visibleVariables()) {
                told.append(told.length() == 0 ? "" : " ").append(variable.name()).append("=").append(value(frame.getValue(variable)));
            }
            return told;
        });
        tell("invoked", () -> {
            ObjectReference object = (ObjectReference) thread.frame(0).getValue(thread.frame(0).visibleVariableByName("counter"));
            return value(object.invokeMethod(thread, counter.methodsByName("toString").get(0), List.of(), ClassType.INVOKE_SINGLE_THREADED));
        });
        tell("string", () -> value(machine.mirrorOf("a text")));
        tell("suspended", () -> machine.allThreads().stream().map(t -> String.valueOf(t.isSuspended())).collect(Collectors.joining(" ")));
        tell("monitors", thread::ownedMonitors);
        tell("step", () -> {
            StepRequest step = requests.createStepRequest(thread, StepRequest.STEP_LINE, StepRequest.STEP_OVER);
            step.addCountFilter(1);
            step.enable();
            Location at = next(machine, StepEvent.class).location();
            requests.deleteEventRequest(step);
            return place(at);
        });
        BreakpointRequest inside = requests.createBreakpointRequest(counter.methodsByName("add").get(0).location());
        inside.enable();
        tell("set", () -> {
            next(machine, BreakpointEvent.class);
            StackFrame frame = thread.frame(0);
            frame.setValue(frame.visibleVariableByName("by"), machine.mirrorOf(6));
            return frame.getValue(frame.visibleVariableByName("by"));
        });
        ExceptionRequest thrown = requests.createExceptionRequest(null, true, true);
        thrown.enable();
        tell("exception", () -> next(machine, ExceptionEvent.class).exception().referenceType().name());
        tell("dispose", () -> { machine.dispose(); return "done"; });
    }
}
