import serialcheck.Filter;

/** Prints what a filter and a table of modules with an unpaired surrogate are answered: they have no bytes in UTF-8. */
public final class NoText {
    public static void main(String[] words) {
        tell("!\ud800", "");
        tell("", "a=\udc00");
    }

    static void tell(String filter, String modules) {
        try {
            new Filter(filter, modules).close();
            System.out.println("a filter was made");
        } catch (IllegalArgumentException fault) {
            System.out.println(fault.getMessage());
        }
    }
}
