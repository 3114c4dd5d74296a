// Asks for a time-stamp token: go run ask.go URL FILE writes FILE.tsq and FILE.tsr. It verifies nothing.
package main

import (
	"bytes"
	"crypto/rand"
	"crypto/sha256"
	"crypto/x509/pkix"
	"encoding/asn1"
	"io"
	"log"
	"math/big"
	"net/http"
	"os"
)

type imprint struct {
	Algorithm pkix.AlgorithmIdentifier
	Hash      []byte
}

type query struct {
	Version int
	Imprint imprint
	Nonce   *big.Int
	CertReq bool
}

func must[T any](value T, err error) T {
	if err != nil {
		log.Fatal(err)
	}
	return value
}

func main() {
	url, file := os.Args[1], os.Args[2]
	hash := sha256.Sum256(must(os.ReadFile(file)))
	sha := pkix.AlgorithmIdentifier{Algorithm: asn1.ObjectIdentifier{2, 16, 840, 1, 101, 3, 4, 2, 1}}
	nonce := must(rand.Int(rand.Reader, big.NewInt(1<<62)))
	asked := must(asn1.Marshal(query{1, imprint{sha, hash[:]}, nonce, true}))
	answer := must(http.Post(url, "application/timestamp-query", bytes.NewReader(asked)))
	reply := must(io.ReadAll(answer.Body))
	// what is no token is short, and says why: `rule 11`, or `429 TooMany`
	if answer.StatusCode != 200 || len(reply) < 64 {
		log.Fatalf("%d %q", answer.StatusCode, reply)
	}
	must(0, os.WriteFile(file+".tsq", asked, 0o644))
	must(0, os.WriteFile(file+".tsr", reply, 0o644))
}
