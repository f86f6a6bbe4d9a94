// SPDX-License-Identifier: Apache-2.0

// Distinct counts the distinct lines of files, and merges them with sketches that were kept.
//
//	distinct [-merge SKETCH].. [-out SKETCH] [FILE]..
//
// It prints the estimate and its bounds at two standard deviations. -out writes the sketch of all lines and sketches.
package main

import (
	"bufio"
	"flag"
	"fmt"
	"io"
	"os"

	"cimbarohe.invalid/hll"
)

func addLines(s *hll.Sketch, from io.Reader) error {
	lines := bufio.NewScanner(from)
	for lines.Scan() {
		if err := s.Add(lines.Bytes()); err != nil {
			return err
		}
	}
	return lines.Err()
}

func addFile(s *hll.Sketch, name string) error {
	file, err := os.Open(name)
	if err != nil {
		return err
	}
	defer file.Close()
	return addLines(s, file)
}

func mergeFile(s *hll.Sketch, name string) error {
	image, err := os.ReadFile(name)
	if err == nil {
		err = s.MergeImage(image)
	}
	if err != nil {
		return fmt.Errorf("%s: %w", name, err)
	}
	return nil
}

// run does what the command line says. Sketches of another lg_k are merged at the smaller one.
func run() error {
	s, err := hll.NewUnion(12)
	if err != nil {
		return err
	}
	out := flag.String("out", "", "the file to which the sketch of all is written")
	flag.Func("merge", "a file with a sketch", func(name string) error { return mergeFile(s, name) })
	flag.Parse()
	for _, name := range flag.Args() {
		if err := addFile(s, name); err != nil {
			return err
		}
	}
	found, err := s.Estimate()
	if err != nil {
		return err
	}
	fmt.Printf("%.0f, between %.0f and %.0f\n", found.Estimate, found.Lower[1], found.Upper[1])
	if *out == "" {
		return nil
	}
	image, err := s.Image(hll.Width8)
	if err != nil {
		return err
	}
	return os.WriteFile(*out, image, 0o666)
}

func main() {
	if err := run(); err != nil {
		fmt.Fprintln(os.Stderr, "distinct:", err)
		os.Exit(1)
	}
}
