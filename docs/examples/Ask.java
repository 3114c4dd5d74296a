// Asks for a time-stamp token, and verifies it by the certificate in it: java -cp BOUNCY-CASTLE Ask.java URL FILE
// writes FILE.tsq and FILE.tsr. It is for the caller to know that certificate.
import java.math.BigInteger;
import java.net.URI;
import java.net.http.*;
import java.nio.file.*;
import java.security.*;
import org.bouncycastle.cert.X509CertificateHolder;
import org.bouncycastle.cms.jcajce.JcaSimpleSignerInfoVerifierBuilder;
import org.bouncycastle.tsp.*;

class Ask {
    @SuppressWarnings("unchecked")
    public static void main(String[] words) throws Exception {
        byte[] hash = MessageDigest.getInstance("SHA-256").digest(Files.readAllBytes(Path.of(words[1])));
        TimeStampRequestGenerator generator = new TimeStampRequestGenerator();
        generator.setCertReq(true);
        BigInteger nonce = new BigInteger(64, new SecureRandom());
        TimeStampRequest request = generator.generate(TSPAlgorithms.SHA256, hash, nonce);
        HttpRequest post = HttpRequest.newBuilder(URI.create(words[0]))
            .header("Content-Type", "application/timestamp-query")
            .POST(HttpRequest.BodyPublishers.ofByteArray(request.getEncoded())).build();
        byte[] reply = HttpClient.newHttpClient().send(post, HttpResponse.BodyHandlers.ofByteArray()).body();
        TimeStampResponse response = new TimeStampResponse(reply);
        response.validate(request);
        TimeStampToken token = response.getTimeStampToken();
        Object certificate = token.getCertificates().getMatches(token.getSID()).iterator().next();
        token.validate(new JcaSimpleSignerInfoVerifierBuilder().build((X509CertificateHolder) certificate));
        Files.write(Path.of(words[1] + ".tsq"), request.getEncoded());
        Files.write(Path.of(words[1] + ".tsr"), reply);
    }
}
