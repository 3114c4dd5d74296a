// Asks for a time-stamp token: Ask.exe URL FILE writes FILE.tsq and FILE.tsr. It verifies nothing. .NET, but not Mono,
// has Rfc3161TimestampRequest in System.Security.Cryptography.Pkcs, which makes a request and verifies its token.
using System;
using System.IO;
using System.Linq;
using System.Net.Http;
using System.Net.Http.Headers;
using System.Security.Cryptography;

class Ask {
    static byte[] Octets(string text) =>
        Enumerable.Range(0, text.Length / 2).Select(at => Convert.ToByte(text.Substring(2 * at, 2), 16)).ToArray();

    static int Main(string[] words) {
        byte[] hash = SHA256.Create().ComputeHash(File.ReadAllBytes(words[1])), nonce = new byte[8];
        RandomNumberGenerator.Create().GetBytes(nonce);
        nonce[0] = 1; // a positive INTEGER in its shortest form
        // a TimeStampReq: version 1, SHA-256 and the hash, the nonce, and TRUE for the certificate
        byte[] start = Octets("30430201013031300d060960864801650304020105000420");
        byte[] query = start.Concat(hash).Concat(Octets("0208")).Concat(nonce).Concat(Octets("0101ff")).ToArray();
        var content = new ByteArrayContent(query);
        content.Headers.ContentType = new MediaTypeHeaderValue("application/timestamp-query");
        var answer = new HttpClient().PostAsync(words[0], content).Result;
        byte[] reply = answer.Content.ReadAsByteArrayAsync().Result;
        // what is no token is short, and says why: `rule 11`, or `429 TooMany`
        if ((int)answer.StatusCode != 200 || reply.Length < 64) {
            Console.Error.WriteLine((int)answer.StatusCode + " " + System.Text.Encoding.ASCII.GetString(reply));
            return 1;
        }
        File.WriteAllBytes(words[1] + ".tsq", query);
        File.WriteAllBytes(words[1] + ".tsr", reply);
        return 0;
    }
}
