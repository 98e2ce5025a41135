// Asks by Java's own HttpClient, for bench/clients: java Asking.java URL TOKEN BODY PAUSE COUNT
//
// Once a line is read it asks COUNT times, with so many seconds between: a POST of the body, and two GETs of the order
// `o1`, in turn. For each it prints a line: the seconds, a space, and the status or the error. Then it stays, with what
// the client keeps, until its input ends.

import java.io.IOException;
import java.net.URI;
import java.net.http.HttpClient;
import java.net.http.HttpRequest;
import java.net.http.HttpResponse.BodyHandlers;

public class Asking {
    public static void main(String[] words) throws Exception {
        String url = words[0], token = words[1], body = words[2];
        long pause = (long) (1000 * Double.parseDouble(words[3]));
        HttpClient client = HttpClient.newHttpClient();
        System.out.println("ready");
        System.in.read();
        for (int number = 0; number < Integer.parseInt(words[4]); number += 1) {
            if (number > 0) {
                Thread.sleep(pause);
            }
            String target = number % 3 == 0 ? "/v1/order" : "/v1/order?name=o1";
            HttpRequest.Builder request = HttpRequest.newBuilder(URI.create(url + target));
            request.header("Authorization", "Bearer " + token);
            if (number % 3 == 0) {
                request.POST(HttpRequest.BodyPublishers.ofString(body));
            }
            long start = System.nanoTime();
            String told;
            try {
                told = String.valueOf(client.send(request.build(), BodyHandlers.ofString()).statusCode());
            } catch (IOException error) {
                told = error.toString();
            }
            System.out.println((System.nanoTime() - start) / 1e9 + " " + told);
        }
        while (System.in.read() >= 0) {
        }
        System.exit(0);
    }
}
