/** A call, its variables, and a text: what line_debugger is shown at. crates/line_debugger/data/adding.json describes the same machine. */
public class Adding {
    static int more(int number) {
        int sum = number + 1;
        return sum;
    }

    public static void main(String[] words) {
        int total = -1;
        String text = "so far";
        total = more(7);
        System.out.println(text + total);
    }
}
