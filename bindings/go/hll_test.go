// SPDX-License-Identifier: Apache-2.0

package hll

import (
	"bytes"
	"database/sql"
	"database/sql/driver"
	"encoding/base64"
	"encoding/binary"
	"encoding/gob"
	"encoding/hex"
	"encoding/json"
	"errors"
	"fmt"
	"io"
	"math"
	"os"
	"os/exec"
	"runtime"
	"strconv"
	"strings"
	"sync"
	"testing"
	"time"
)

func must[T any](t *testing.T) func(T, error) T {
	return func(value T, err error) T {
		t.Helper()
		if err != nil {
			t.Fatal(err)
		}
		return value
	}
}

func filled(t *testing.T, lgK, from, to int) *Sketch {
	t.Helper()
	s := must[*Sketch](t)(New(lgK))
	for i := from; i < to; i++ {
		if err := s.AddInt(int64(i)); err != nil {
			t.Fatal(err)
		}
	}
	return s
}

func imageOf(t *testing.T, s *Sketch) []byte {
	t.Helper()
	return must[[]byte](t)(s.Image(Width8))
}

// added returns an empty sketch of lg_k 12 after a call.
func added(add func(*Sketch) error) (*Sketch, error) {
	s, err := New(12)
	if err == nil {
		err = add(s)
	}
	return s, err
}

// takenByEach takes a value or an image of tests/behaviour by each call that takes it, each with a sketch of its own.
func takenByEach(t *testing.T, call, given string) (ways []func() (*Sketch, error)) {
	way := func(add func(*Sketch) error) { ways = append(ways, func() (*Sketch, error) { return added(add) }) }
	decoded, _ := hex.DecodeString(given)
	switch call {
	case "text", "bytes":
		way(func(s *Sketch) error { return s.Add(decoded) })
		way(func(s *Sketch) error { return s.AddString(string(decoded)) })
		way(func(s *Sketch) error { return s.AddStrings(string(decoded)) })
		way(func(s *Sketch) error { return s.AddCoupons([]uint32{Coupon(decoded)}) })
	case "integer":
		if number, err := strconv.ParseInt(given, 10, 64); err == nil {
			way(func(s *Sketch) error { return s.AddInt(number) })
		}
		if number, err := strconv.ParseUint(given, 10, 64); err == nil {
			way(func(s *Sketch) error { return s.AddUint(number) })
		}
	case "real":
		number := must[float64](t)(strconv.ParseFloat(given, 64))
		way(func(s *Sketch) error { return s.AddFloat(number) })
	case "whole":
		ways = append(ways, func() (*Sketch, error) { return Read(decoded) })
		way(func(s *Sketch) error { return s.UnmarshalBinary(decoded) })
		way(func(s *Sketch) error { return s.UnmarshalText([]byte(base64.StdEncoding.EncodeToString(decoded))) })
		way(func(s *Sketch) error { return s.Scan(decoded) })
		way(func(s *Sketch) error { return s.Scan(base64.StdEncoding.EncodeToString(decoded)) })
		way(func(s *Sketch) error {
			if _, err := InfoOf(decoded); err != nil {
				return err
			}
			if _, _, err := HIPEstimate(decoded); err != nil {
				return err
			}
			return s.UnmarshalBinary(decoded)
		})
		ways = append(ways, func() (*Sketch, error) {
			lgK := int(headOf(decoded).lg_k)
			if lgK == 0 {
				lgK = 12
			}
			s, err := New(lgK)
			if err == nil {
				err = s.MergeImage(decoded)
			}
			return s, err
		})
	}
	return ways
}

// united merges images under a bound; without one, into the first of them.
func united(lgMaxK int, images []string) (s *Sketch, err error) {
	if lgMaxK != 0 {
		s, err = NewUnion(lgMaxK)
	}
	for i := 0; i < len(images) && err == nil; i++ {
		if image, _ := hex.DecodeString(images[i]); s == nil {
			s, err = Read(image)
		} else {
			err = s.MergeImage(image)
		}
	}
	return s, err
}

// answered returns what a sketch of a way keeps of a value or is as an image, or why there is none.
func answered(s *Sketch, err error, width Width, isValue bool) string {
	if err != nil {
		return "rejected: " + err.Error()
	}
	image, err := s.Image(width)
	if err != nil {
		return "rejected: " + err.Error()
	}
	if isValue {
		return fmt.Sprintf("%08x", binary.LittleEndian.Uint32(image[8:]))
	}
	return hex.EncodeToString(image)
}

// The cases of tests/behaviour, which every binding runs. The check of this package says where the script is that reads them.
func TestBehaviour(t *testing.T) {
	if os.Getenv("HLL_CASES") == "" {
		t.Skip("HLL_CASES names no script")
	}
	cases := string(must[[]byte](t)(exec.Command("python3", "-B", os.Getenv("HLL_CASES"), "go").Output()))
	var answers strings.Builder
	for _, line := range strings.Split(strings.TrimSuffix(cases, "\n"), "\n") {
		call, given, _ := strings.Cut(line, "\t")
		fields, found := strings.Fields(given), map[string]bool{}
		switch call {
		case "union", "new":
			number, _ := strconv.Atoi(fields[0])
			width, _ := strconv.Atoi(fields[1])
			s, err := united(number, fields[2:])
			if call == "new" {
				s, err = New(number)
			}
			found[answered(s, err, Width(width), false)] = true
		case "coupons":
			var coupons []uint32
			for _, field := range fields {
				coupons = append(coupons, uint32(must[uint64](t)(strconv.ParseUint(field, 16, 32))))
			}
			s, err := added(func(s *Sketch) error { return s.AddCoupons(coupons) })
			found[answered(s, err, Width8, false)] = true
		default:
			image, _ := hex.DecodeString(given)
			width := Width8
			if head := headOf(image); call == "whole" && head.width != 0 {
				width = Width(head.width)
			}
			for _, way := range takenByEach(t, call, given) {
				s, err := way()
				found[answered(s, err, width, call != "whole")] = true
			}
		}
		all := make([]string, 0, len(found))
		for answer := range found {
			all = append(all, answer)
		}
		answers.WriteString(strings.Join(all, " or ") + "\n")
	}
	compare := exec.Command("python3", "-B", os.Getenv("HLL_CASES"), "go", "-")
	compare.Stdin = strings.NewReader(answers.String())
	if said, err := compare.CombinedOutput(); err != nil {
		t.Error(err, string(said))
	}
}

// The check runs all tests with HLL_CPU=x86-64-v2, too.
func TestProcessor(t *testing.T) {
	known := map[string][]string{"amd64": {"x86-64-v2", "x86-64-v3"}, "arm64": {"aarch64"}}[runtime.GOARCH]
	if runtime.GOARCH == "amd64" && os.Getenv("HLL_CPU") == "x86-64-v2" {
		known = known[:1]
	}
	for _, name := range known {
		if Processor() == name {
			return
		}
	}
	t.Errorf("the code for %s runs", Processor())
}

// What the cases of tests/behaviour can't write: another NaN, and no bytes at all.
func TestValues(t *testing.T) {
	one, other := must[*Sketch](t)(New(12)), must[*Sketch](t)(New(12))
	for _, err := range []error{one.AddFloat(math.NaN()), one.Add(nil), other.AddFloat(math.Float64frombits(0xfff0000000000001)), other.AddString("")} {
		if err != nil {
			t.Fatal(err)
		}
	}
	if !bytes.Equal(imageOf(t, one), imageOf(t, other)) {
		t.Error("the same values have different images")
	}
	if found := must[Estimation](t)(one.Estimate()); math.Round(found.Estimate) != 2 || found.Lower[0] < 2 {
		t.Error(found)
	}
}

// Unions of every order and grouping, of images and sketches, are the sketch of all values.
func TestUnions(t *testing.T) {
	for _, n := range []int{3, 100, 5000} {
		monday, tuesday, all := filled(t, 12, 0, n), filled(t, 12, n/2, 2*n), filled(t, 12, 0, 2*n)
		a, b := must[*Sketch](t)(New(12)), must[*Sketch](t)(NewUnion(12))
		for _, err := range []error{a.Merge(monday), a.MergeImage(imageOf(t, tuesday)), b.MergeImage(imageOf(t, tuesday)), b.Merge(monday), b.Merge(b)} {
			if err != nil {
				t.Fatal(err)
			}
		}
		if wanted := imageOf(t, all); !bytes.Equal(imageOf(t, a), wanted) || !bytes.Equal(imageOf(t, b), wanted) {
			t.Errorf("%d values: the unions differ", n)
		}
		found := must[Estimation](t)(a.Estimate())
		if found.Lower[2] > float64(2*n) || found.Upper[2] < float64(2*n) {
			t.Errorf("%d values: %v", 2*n, found)
		}
	}
}

func TestLgK(t *testing.T) {
	fine, coarse := filled(t, 14, 0, 9000), filled(t, 10, 0, 9000)
	before := imageOf(t, fine)
	if err := fine.Merge(coarse); !errors.Is(err, ErrOtherLgK) {
		t.Error(err)
	}
	if !bytes.Equal(imageOf(t, fine), before) {
		t.Error("an error changed the sketch")
	}
	all := must[*Sketch](t)(NewUnion(12))
	if err := all.Merge(fine); err != nil || all.LgK() != 12 {
		t.Error(err, all.LgK())
	}
	if err := all.Merge(coarse); err != nil || all.LgK() != 10 || !bytes.Equal(imageOf(t, all), imageOf(t, coarse)) {
		t.Error(err, all.LgK())
	}
	for _, lgK := range []int{-1, 0, 1 << 40} {
		if _, err := New(lgK); err == nil {
			t.Error(lgK)
		}
	}
}

func TestBadImages(t *testing.T) {
	image := imageOf(t, filled(t, 12, 0, 5000))
	var bad *ImageError
	for size := 0; size < len(image); size += 1 + size/9 {
		if _, err := Read(image[:size]); !errors.As(err, &bad) || bad.Reason() != "truncated" || bad.Size != size {
			t.Error(size, err)
		}
	}
	if !IsSmall(image) || IsSmall([]byte{2, 1, 7, 21, 3, 12, 0, 8}) || !IsSmall(nil) {
		t.Error("IsSmall")
	}
}

func TestLifeCopied(t *testing.T) {
	for _, n := range []int{0, 3, 300, 5000} {
		s := filled(t, 12, 0, n)
		copied := s.Clone()
		if s.IsEmpty() != (n == 0) || !bytes.Equal(imageOf(t, copied), imageOf(t, s)) {
			t.Error(n)
		}
		before := imageOf(t, s)
		if err := copied.AddString("another"); err != nil || copied.IsEmpty() || !bytes.Equal(imageOf(t, s), before) {
			t.Error(n, err)
		}
		for _, width := range []Width{Width4, Width6, Width8} {
			read := must[*Sketch](t)(Read(must[[]byte](t)(s.Image(width))))
			if !bytes.Equal(imageOf(t, read), before) {
				t.Error(n, width)
			}
		}
		var buffer bytes.Buffer
		var read Sketch
		if err := gob.NewEncoder(&buffer).Encode(*s); err != nil {
			t.Fatal(err)
		}
		if err := gob.NewDecoder(&buffer).Decode(&read); err != nil || !bytes.Equal(imageOf(t, &read), before) {
			t.Error(n, err)
		}
	}
}

// What encoding/json writes and reads: structs and maps, with pointers and without.
func TestLifeJSON(t *testing.T) {
	type site struct {
		All  Sketch
		Days map[string]*Sketch
		Kept map[string]Sketch
	}
	for _, n := range []int{0, 2, 300, 5000} {
		monday := filled(t, 12, 0, n)
		image := imageOf(t, monday)
		text := must[[]byte](t)(json.Marshal(site{*filled(t, 12, 0, n), map[string]*Sketch{"monday": monday}, map[string]Sketch{"monday": *monday}}))
		var read site
		if err := json.Unmarshal(text, &read); err != nil {
			t.Fatal(err)
		}
		kept := read.Kept["monday"]
		for _, s := range []*Sketch{&read.All, read.Days["monday"], &kept} {
			if !bytes.Equal(imageOf(t, s), image) {
				t.Error(n)
			}
		}
	}
	var s Sketch
	if err := json.Unmarshal([]byte(`"AgEHDAMIAgj4EWAEvyBkHA=="`), &s); err != nil {
		t.Fatal(err)
	}
	if text := must[[]byte](t)(json.Marshal(s)); string(text) != `"AgEHDAMIAgj4EWAEvyBkHA=="` {
		t.Error(string(text))
	}
	before := imageOf(t, &s)
	for text, wanted := range map[string]string{
		`"ann"`:                      "illegal base64 data",
		`"AgEKDAMIAgj4EWAEvyBkHA=="`: "these 16 bytes are not the image of a sketch: The family byte is not 7. (family)",
		`"AgEHDAMIAgj4EWAEvyBk"`:     "these 15 bytes are not the image of a sketch: The bytes end inside what the header asks for. (truncated)",
		`"AgEHDAMIAgj4EWAEvyBkHAA="`: "these 17 bytes are not the image of a sketch: They begin with one of 16 bytes. (trailing)",
	} {
		if err := json.Unmarshal([]byte(text), &s); err == nil || !strings.Contains(err.Error(), wanted) || !bytes.Equal(imageOf(t, &s), before) {
			t.Error(text, err)
		}
	}
}

// unusable checks that sketches hold nothing, and that each call returns this error.
func unusable(t *testing.T, wanted error, sketches ...*Sketch) {
	t.Helper()
	other := filled(t, 12, 0, 3)
	image := imageOf(t, other)
	for _, s := range sketches {
		_, imageErr := s.Image(Width8)
		_, estimateErr := s.Estimate()
		_, jsonErr := json.Marshal(map[string]*Sketch{"day": s})
		_, structErr := json.Marshal(struct{ Day Sketch }{*s})
		_, writeErr := s.WriteTo(io.Discard)
		_, valueErr := s.Value()
		_, foldErr := s.Fold(4)
		_, agreeErr := s.Agrees(other)
		_, otherErr := other.Agrees(s)
		if text := fmt.Sprint(s); text != wanted.Error() {
			t.Error(text)
		}
		for i, err := range []error{s.Add(nil), s.AddString("ann"), s.AddInt(1), s.AddUint(1), s.AddFloat(1), s.MergeImage(image), s.Merge(other), s.Merge(s), other.Merge(s),
			s.AddStrings("ann"), s.AddStrings(), s.AddCoupons([]uint32{1 << 26}), s.AddCoupons(nil), writeErr, valueErr, foldErr, agreeErr, otherErr,
			imageErr, estimateErr, jsonErr, structErr, gob.NewEncoder(&bytes.Buffer{}).Encode(s)} {
			if !errors.Is(err, wanted) {
				t.Error(wanted, i, err)
			}
		}
		if s.LgK() != 0 || s.IsEmpty() {
			t.Error(wanted, s.LgK(), s.IsEmpty())
		}
		s.Close()
		if err := s.UnmarshalBinary(image); err != nil || !bytes.Equal(imageOf(t, s), image) || !bytes.Equal(imageOf(t, other), image) {
			t.Error(wanted, err)
		}
	}
}

func TestLifeZero(t *testing.T) {
	var zero Sketch
	unusable(t, ErrZero, &zero, zero.Clone())
}

func TestLifeClosed(t *testing.T) {
	closed, union := filled(t, 12, 0, 300), must[*Sketch](t)(NewUnion(12))
	copied := *closed
	closed.Close()
	union.Close()
	unusable(t, ErrClosed, closed, &copied, closed.Clone(), union)
}

func TestStrings(t *testing.T) {
	var names []string
	one := must[*Sketch](t)(New(12))
	for i := 0; i < 5000; i++ {
		names = append(names, strconv.Itoa(i))
		if err := one.AddString(names[i]); err != nil {
			t.Fatal(err)
		}
	}
	many := must[*Sketch](t)(New(12))
	for _, err := range []error{many.AddString("17"), many.AddStrings(names...), many.AddStrings("ann", ""), many.AddStrings(), one.AddStrings("", "ann")} {
		if err != nil {
			t.Fatal(err)
		}
	}
	if !bytes.Equal(imageOf(t, one), imageOf(t, many)) {
		t.Error("strings at once are others than one by one")
	}
}

func TestCoupons(t *testing.T) {
	s, other := filled(t, 12, 0, 300), must[*Sketch](t)(New(12))
	var coupons []uint32
	for i := 0; i < 300; i++ {
		coupons = append(coupons, Coupon(binary.LittleEndian.AppendUint64(nil, uint64(i))))
	}
	if err := other.AddCoupons(coupons); err != nil || !bytes.Equal(imageOf(t, s), imageOf(t, other)) {
		t.Error(err)
	}
	if Coupon([]byte("ann")) != 0x046011f8 {
		t.Error(Coupon([]byte("ann")))
	}
}

func TestFold(t *testing.T) {
	for _, n := range []int{0, 5, 300, 20_000} {
		fine, coarse := filled(t, 14, 0, n), filled(t, 10, 0, n)
		folded := must[*Sketch](t)(fine.Fold(10))
		if folded.LgK() != 10 || !must[bool](t)(folded.Agrees(coarse)) || !must[bool](t)(fine.Agrees(coarse)) {
			t.Error(n, folded)
		}
		if same := must[*Sketch](t)(fine.Fold(14)); !bytes.Equal(imageOf(t, same), imageOf(t, fine)) {
			t.Error(n)
		}
		if n > 0 && must[bool](t)(fine.Agrees(filled(t, 14, n, 2*n))) {
			t.Error(n, "others agree")
		}
		for lgK, wanted := range map[int]string{3: "lg_k is 3; it must be 4 to 21", 15: "lg_k is 15; it must be at most that of the sketch, 14"} {
			if _, err := fine.Fold(lgK); err == nil || err.Error() != wanted {
				t.Error(err)
			}
		}
	}
}

func TestInfo(t *testing.T) {
	image := must[[]byte](t)(filled(t, 11, 0, 5).Image(Width6))
	if found := must[Info](t)(InfoOf(image)); found != (Info{LgK: 11, Width: Width6, Stage: StageList, Coupons: 5}) || fmt.Sprint(found.Stage) != "list" {
		t.Errorf("%+v", found)
	}
	if found := must[Info](t)(InfoOf(imageOf(t, must[*Sketch](t)(New(4))))); !found.IsEmpty || found.LgK != 4 {
		t.Errorf("%+v", found)
	}
	if found := must[Info](t)(InfoOf(imageOf(t, filled(t, 11, 0, 100)))); found.Stage.String() != "set" {
		t.Errorf("%+v", found)
	}
	image = imageOf(t, filled(t, 11, 0, 5000))
	found := must[Info](t)(InfoOf(image))
	if fmt.Sprint(found.Stage, Stage(7)) != "registers Stage(7)" || !found.OutOfOrder || found.HasHIP || found.Zeros == 0 || found.HIP != 0 || found.KxQ0 <= 0 || found.KxQ1 < 0 {
		t.Errorf("%+v", found)
	}
	if estimation, hasHIP, err := HIPEstimate(image); hasHIP || err != nil || estimation != (Estimation{}) {
		t.Error(estimation, hasHIP, err)
	}

	// as another program writes it that added the values in order
	image[5] &^= 16
	binary.LittleEndian.PutUint64(image[8:], math.Float64bits(4321.5))
	if found := must[Info](t)(InfoOf(image)); found.OutOfOrder || !found.HasHIP || found.HIP != 4321.5 {
		t.Errorf("%+v", found)
	}
	if estimation, hasHIP, err := HIPEstimate(image); !hasHIP || err != nil || estimation.Estimate != 4321.5 || estimation.Lower[0] >= 4321.5 || estimation.Upper[0] <= 4321.5 {
		t.Error(estimation, hasHIP, err)
	}
}

func TestString(t *testing.T) {
	s := must[*Sketch](t)(New(12))
	if err := s.AddStrings("ann", "bob"); err != nil {
		t.Fatal(err)
	}
	wanted := "sketch of lg_k 12: about 2 distinct values, with 95% certainty 2 to 3"
	for _, text := range []string{fmt.Sprint(s), fmt.Sprint(*s), fmt.Sprintf("%v", map[string]Sketch{"day": *s})} {
		if !strings.Contains(text, wanted) {
			t.Error(text)
		}
	}
}

func TestWriteTo(t *testing.T) {
	s := filled(t, 12, 0, 300)
	var out bytes.Buffer
	if n, err := s.WriteTo(&out); err != nil || n != int64(out.Len()) || !bytes.Equal(out.Bytes(), imageOf(t, s)) {
		t.Error(n, err)
	}
	reader, writer := io.Pipe()
	reader.Close()
	if n, err := s.WriteTo(writer); n != 0 || !errors.Is(err, io.ErrClosedPipe) {
		t.Error(n, err)
	}
}

// column is a driver for database/sql whose database is one value: Exec keeps its argument, and Query returns it.
type column struct{ kept driver.Value }

func (c *column) Open(string) (driver.Conn, error)          { return c, nil }
func (c *column) Prepare(string) (driver.Stmt, error)       { return c, nil }
func (c *column) Begin() (driver.Tx, error)                 { return nil, errors.New("not here") }
func (c *column) Close() error                              { return nil }
func (c *column) NumInput() int                             { return -1 }
func (c *column) Query([]driver.Value) (driver.Rows, error) { return &row{c.kept, false}, nil }
func (c *column) Exec(v []driver.Value) (driver.Result, error) {
	c.kept = v[0]
	return driver.RowsAffected(1), nil
}

type row struct {
	kept   driver.Value
	isRead bool
}

func (r *row) Columns() []string { return []string{"users"} }
func (r *row) Close() error      { return nil }
func (r *row) Next(to []driver.Value) error {
	if r.isRead {
		return io.EOF
	}
	r.isRead, to[0] = true, r.kept
	return nil
}

func TestDatabase(t *testing.T) {
	kept := &column{}
	sql.Register("column", kept)
	db := must[*sql.DB](t)(sql.Open("column", ""))
	defer db.Close()
	for _, n := range []int{0, 5, 300, 5000} {
		s := filled(t, 12, 0, n)
		for _, argument := range []any{s, *s} {
			if _, err := db.Exec("INSERT INTO days VALUES ($1)", argument); err != nil {
				t.Fatal(err)
			}
			var read Sketch
			var pointer *Sketch
			for _, to := range []any{&read, &pointer} {
				if err := db.QueryRow("SELECT users FROM days").Scan(to); err != nil {
					t.Fatal(err)
				}
			}
			if !bytes.Equal(imageOf(t, &read), imageOf(t, s)) || !bytes.Equal(imageOf(t, pointer), imageOf(t, s)) {
				t.Error(n)
			}
		}
	}

	s := filled(t, 12, 0, 5)
	before := imageOf(t, s)
	scanned := func(value driver.Value) error {
		kept.kept = value
		return db.QueryRow("SELECT users FROM days").Scan(s)
	}
	for wanted, value := range map[string]driver.Value{
		"(trailing)":                   append(append([]byte(nil), before...), 0),
		"(truncated)":                  before[:9],
		"illegal base64 data":          "ann",
		"the column is NULL: scan int": nil,
		"the column is a int64":        int64(7),
	} {
		if err := scanned(value); err == nil || !strings.Contains(err.Error(), wanted) || !bytes.Equal(imageOf(t, s), before) {
			t.Error(wanted, err)
		}
	}
	if _, err := db.Exec("INSERT INTO days VALUES ($1)", (*Sketch)(nil)); err != nil || kept.kept != nil {
		t.Error(err, kept.kept)
	}
	pointer := s
	if err := db.QueryRow("SELECT users FROM days").Scan(&pointer); err != nil || pointer != nil {
		t.Error(err, pointer)
	}
	if err := scanned("AgEHDAMIAgj4EWAEvyBkHA=="); err != nil || fmt.Sprint(s) != "sketch of lg_k 12: about 2 distinct values, with 95% certainty 2 to 3" {
		t.Error(err, s)
	}
}

// Shards in goroutines.
func TestShards(t *testing.T) {
	shards := make([]*Sketch, 4)
	var group sync.WaitGroup
	for i := range shards {
		group.Add(1)
		go func(i int) {
			defer group.Done()
			shards[i] = filled(t, 11, 1000*i, 1000*i+2000)
		}(i)
	}
	group.Wait()
	all := must[*Sketch](t)(New(11))
	for _, shard := range shards {
		if err := all.Merge(shard); err != nil {
			t.Fatal(err)
		}
	}
	if !bytes.Equal(imageOf(t, all), imageOf(t, filled(t, 11, 0, 5000))) {
		t.Error("shards differ from the whole")
	}
}

// mostMemory returns the most kilobytes that this process has had in memory.
func mostMemory(t *testing.T) int {
	t.Helper()
	status := must[[]byte](t)(os.ReadFile("/proc/self/status"))
	_, most, _ := strings.Cut(string(status), "VmHWM:")
	return must[int](t)(strconv.Atoi(strings.Fields(most)[0]))
}

// Sketches of 256 megabytes in all, whose memory is given back by Close, or by the garbage collector.
func TestMemory(t *testing.T) {
	image := imageOf(t, filled(t, 16, 0, 100000))
	before := mostMemory(t)
	for _, isClosed := range []bool{true, false} {
		for i := 0; i < 4000; i++ {
			s := must[*Sketch](t)(Read(image))
			if isClosed {
				s.Close()
				s.Close()
			} else if i%100 == 0 {
				runtime.GC()
				time.Sleep(time.Millisecond) // for the finalizers
			}
		}
		if more := mostMemory(t) - before; more > 64<<10 {
			t.Error(isClosed, more)
		}
	}
}

// Whoever copies the struct shares its counter, which is freed once.
func TestLifeLanguage(t *testing.T) {
	for i := 0; i < 100; i++ {
		s := filled(t, 12, 0, 1000)
		copied := *s
		s = nil
		runtime.GC()
		if found := must[Estimation](t)(copied.Estimate()); found.Estimate < 900 {
			t.Fatal(found)
		}
	}
}

func ExampleSketch() {
	monday, _ := New(12)
	tuesday, _ := New(12)
	for user := int64(1); user <= 600; user++ {
		_ = monday.AddInt(user)
		_ = tuesday.AddInt(user + 400)
	}
	_ = monday.Merge(tuesday)
	found, _ := monday.Estimate()
	fmt.Printf("%.0f\n", found.Estimate)
	// Output: 988
}

func BenchmarkAddInt(b *testing.B) {
	s, _ := New(12)
	for i := 0; i < b.N; i++ {
		_ = s.AddInt(int64(i))
	}
}

func TestUnionImages(t *testing.T) {
	image := func(s *Sketch, width Width) []byte { return must[[]byte](t)(s.Image(width)) }
	parts := [][]byte{image(filled(t, 12, 0, 5), Width8), image(filled(t, 12, 0, 20_000), Width4), image(filled(t, 13, 15_000, 40_000), Width6)}
	all := must[*Sketch](t)(NewUnion(12))
	for _, part := range parts {
		if err := all.MergeImage(part); err != nil {
			t.Fatal(err)
		}
	}
	for _, width := range []Width{Width4, Width6, Width8} {
		if !bytes.Equal(must[[]byte](t)(UnionImages(12, width, parts)), image(all, width)) {
			t.Errorf("another union of %d bits", width)
		}
	}
	none := must[[]byte](t)(UnionImages(10, Width8, nil))
	if !bytes.Equal(none, image(must[*Sketch](t)(New(10)), Width8)) {
		t.Error("no images are not the empty sketch")
	}

	cut, twice := parts[1][:len(parts[1])-1], append(append([]byte(nil), parts[0]...), parts[0]...)
	for _, bad := range []struct {
		image  []byte
		reason string
	}{{cut, "truncated"}, {twice, "trailing"}, {nil, "truncated"}} {
		var found *ImageError
		_, err := UnionImages(12, Width8, [][]byte{parts[0], bad.image, parts[2]})
		if !errors.As(err, &found) || found.Reason() != bad.reason || !strings.HasPrefix(err.Error(), "images[1]: ") {
			t.Errorf("%s: %v", bad.reason, err)
		}
	}
	for _, lgK := range []int{3, 22} {
		if _, err := UnionImages(lgK, Width8, parts); err == nil || !strings.Contains(err.Error(), "4 to 21") {
			t.Errorf("lg_k %d: %v", lgK, err)
		}
	}
	if _, err := UnionImages(12, 5, parts); err == nil || !strings.Contains(err.Error(), "4, 6 or 8") {
		t.Errorf("a width of 5: %v", err)
	}
}
