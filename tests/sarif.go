// Reads a report in SARIF by the structures that go-sarif has generated from the published schema of SARIF 2.1.0, and
// writes what they hold of it. A property that the schema does not have, or one of another type, is a fault.
package main

import (
	"encoding/json"
	"log"
	"os"

	"github.com/haya14busa/go-sarif/sarif"
)

func main() {
	log.SetFlags(0)
	decoder := json.NewDecoder(os.Stdin)
	decoder.DisallowUnknownFields()
	var report sarif.Sarif
	if err := decoder.Decode(&report); err != nil {
		log.Fatal(err)
	}
	if err := json.NewEncoder(os.Stdout).Encode(report); err != nil {
		log.Fatal(err)
	}
}
