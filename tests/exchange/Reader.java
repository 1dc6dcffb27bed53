// Prints the properties of a file, each key and value in hexadecimal digits of their units.
public class Reader {
    static String units(String text) {
        return text.chars().mapToObj(unit -> String.format("%04x", unit)).collect(java.util.stream.Collectors.joining());
    }
    public static void main(String[] args) throws Exception {
        var properties = new java.util.Properties();
        try (var reader = new java.io.InputStreamReader(new java.io.FileInputStream(args[0]), "UTF-8")) {
            properties.load(reader);
        }
        properties.forEach((key, value) -> System.out.println(units((String) key) + " " + units((String) value)));
        var bundle = new java.util.PropertyResourceBundle(new java.io.FileInputStream(args[0]));
        if (!bundle.keySet().equals(properties.stringPropertyNames())) {
            throw new Exception("a ResourceBundle has other keys");
        }
    }
}
