import com.sun.net.httpserver.HttpServer;
import java.io.ByteArrayInputStream;
import java.io.IOException;
import java.io.ObjectInputStream;
import java.net.InetAddress;
import java.net.InetSocketAddress;
import java.nio.charset.StandardCharsets;
import java.util.concurrent.Executors;

/** An application behind nginx: it reads an object of each body and answers with its class and text. It prints its port first. */
public final class Upstream {
    public static void main(String[] words) throws IOException {
        HttpServer server = HttpServer.create(new InetSocketAddress(InetAddress.getLoopbackAddress(), 0), 64);
        server.createContext("/", exchange -> {
            byte[] answer = answerTo(exchange.getRequestBody().readAllBytes()).getBytes(StandardCharsets.UTF_8);
            exchange.sendResponseHeaders(200, answer.length);
            exchange.getResponseBody().write(answer);
            exchange.close();
        });
        server.setExecutor(Executors.newFixedThreadPool(8));
        server.start();
        System.out.println(server.getAddress().getPort());
    }

    private static String answerTo(byte[] body) {
        if (body.length == 0) {
            return "no body";
        }
        System.out.println("a body of " + body.length + " bytes");
        try (ObjectInputStream in = new ObjectInputStream(new ByteArrayInputStream(body))) {
            Object read = in.readObject();
            return read.getClass().getName() + " " + String.valueOf(read).length();
        } catch (ClassNotFoundException | IOException fault) {
            return fault.toString();
        }
    }
}
