// SPDX-License-Identifier: Apache-2.0

//go:build linux && (amd64 || arm64)

// Package hll counts distinct values with HyperLogLog sketches in the format of Apache DataSketches, and merges them, over the
// C library libhll.
//
// Proved calls of the C library hash and add values, read, merge and write images, and estimate from registers. What a counter (a
// sketch that grows by itself) counts, merges and writes, and what it estimates from registers, is decided by proved calls alone.
// Bounds, and estimates from few values, are plain C (`estimate.c`). The C of a counter allocates memory, copies bytes to it and frees
// it. What is plain C is tested, not proved.
//
//	monday, err := hll.New(12)
//	err = monday.AddString("ann")
//	image, err := monday.Image(hll.Width8) // for a file, or a column of a table
//	err = all.MergeImage(image)
//	found, err := all.Estimate()
//
// An error leaves the sketch as it was. One goroutine at a time uses a sketch, also to read it; different sketches share nothing.
// encoding/gob and encoding/json write a sketch as its image.
//
// The memory of a sketch is C's. The garbage collector frees it with the sketch, but doesn't count it: a program that makes many
// large sketches should call Close on each one that it doesn't need any more.
package hll

// #cgo linux,amd64 CFLAGS: -DHLL_WITH_V3
// #include "hll.h"
import "C"

import (
	"database/sql/driver"
	"encoding"
	"encoding/base64"
	"encoding/binary"
	"errors"
	"fmt"
	"io"
	"math"
	"runtime"
	"unsafe"
)

// Width is the number of bits of a register in an image. It changes the size of images, and nothing else.
type Width uint8

// The widths of images.
const (
	Width4 Width = 4
	Width6 Width = 6
	Width8 Width = 8
)

// ErrOtherLgK is returned where sketches of different lg_k would be merged and no bound was given.
var ErrOtherLgK = errors.New("the sketches have different lg_k: to merge them at the smaller lg_k, give a bound, as NewUnion does")

// A closed sketch and the zero Sketch return these errors from every call that can return one, except UnmarshalBinary and
// UnmarshalText, which replace them.
var (
	ErrClosed = errors.New("hll: the sketch is closed: call Close after its last use")
	ErrZero   = errors.New("hll: the zero Sketch holds nothing: make one with hll.New, hll.NewUnion or hll.Read")
)

// ImageError says why bytes are not the image of a sketch.
type ImageError struct {
	status C.hll_status
	// Size is the number of bytes.
	Size int
	more int // that follow an image
}

// Reason returns the first check that the bytes fail as one word: "truncated", "family" and so on, or "trailing" if they begin with
// an image and don't end with it.
func (e *ImageError) Reason() string { return C.GoString(C.hll_reason(e.status)) }

func (e *ImageError) Error() string {
	why := C.GoString(C.hll_message(e.status))
	if e.more > 0 {
		why = fmt.Sprintf("They begin with one of %d bytes.", e.Size-e.more)
	}
	return fmt.Sprintf("these %d bytes are not the image of a sketch: %s (%s)", e.Size, why, e.Reason())
}

// errorOf returns what a status says, and nil for HLL_OK.
func errorOf(status C.hll_status, size int) error {
	switch {
	case status == C.HLL_OK:
		return nil
	case C.HLL_TRUNCATED <= status && status <= C.HLL_REGISTER:
		return &ImageError{status: status, Size: size}
	case status == C.HLL_OTHER_LG_K:
		return ErrOtherLgK
	}
	return errors.New(C.GoString(C.hll_message(status)))
}

// Processor returns for which processors the code of libhll was compiled that runs: "x86-64-v2", "x86-64-v3" or "aarch64". On Linux
// on x86-64 the first call chooses, and the environment variable HLL_CPU=x86-64-v2 keeps the first.
func Processor() string { return C.GoString(C.hll_processor()) }

// start returns the first byte of a slice for C, nil if there is none.
func start(bytes []byte) *C.uint8_t {
	if len(bytes) == 0 {
		return nil
	}
	return (*C.uint8_t)(unsafe.Pointer(&bytes[0]))
}

// written returns what a call writes into a buffer. The call is made again if it needs a larger one.
func written(room int, call func(out *C.uint8_t, room C.size_t, size *C.size_t) C.hll_status) ([]byte, C.hll_status) {
	for {
		out, size := make([]byte, room), C.size_t(0)
		status := call(start(out), C.size_t(room), &size)
		if status != C.HLL_BUFFER {
			return out[:size:size], status
		}
		room = int(size)
	}
}

// batch is the number of values that are added by one call: a call from Go into C takes about as long as adding ten.
const batch = 256

// counter is a counter of hll.h. It has an allocation of its own, so its memory is freed once, whoever copies a Sketch.
type counter struct {
	c        C.hll_counter
	isClosed bool
}

// newCounter returns an empty counter, whose bound is its lg_k.
func newCounter(lgK int) (*counter, error) {
	made := &counter{}
	if status := C.hll_counter_init(&made.c, C.uint(lgK), nil, nil); status != C.HLL_OK {
		return nil, errorOf(status, 0)
	}
	runtime.SetFinalizer(made, func(c *counter) { C.hll_counter_free(&c.c) })
	return made, nil
}

// Sketch counts distinct values. Make it with New, NewUnion or Read, as the zero Sketch holds nothing: its calls return ErrZero.
type Sketch struct {
	counter *counter
	values  []byte // that wait, concatenated
	ends    []C.size_t
}

// New returns an empty sketch of 2^lgK registers; lgK is 4 to 21. At 12 its standard error is 1.6 %. Only sketches of this lgK are
// merged into it.
func New(lgK int) (*Sketch, error) {
	s, err := NewUnion(lgK)
	if err == nil {
		err = errorOf(C.hll_counter_bind(&s.counter.c, 0), 0)
	}
	return s, err
}

// NewUnion returns an empty sketch into which sketches of every lg_k are merged. Its lg_k is lgMaxK, or the smallest lg_k of
// a merged sketch with registers, if that is smaller.
func NewUnion(lgMaxK int) (*Sketch, error) {
	if err := checkLgK(lgMaxK); err != nil {
		return nil, err
	}
	made, err := newCounter(lgMaxK)
	return &Sketch{counter: made}, err
}

// Read returns the sketch of an image, which is checked whole. It returns an *ImageError if the bytes are no image, or more than one. If
// they are untrusted, call IsSmall first.
func Read(image []byte) (*Sketch, error) {
	lgK := int(headOf(image).lg_k)
	if lgK == 0 {
		lgK = 4 // so that the merge returns the reason
	}
	s, err := New(lgK)
	if err == nil {
		err = s.MergeImage(image)
	}
	if err != nil {
		return nil, err
	}
	return s, nil
}

// headOf returns what the header of an image says.
func headOf(image []byte) C.hll_head {
	var head C.hll_head
	C.hll_image_head(start(image), C.size_t(len(image)), &head, C.sizeof_hll_head)
	return head
}

// checkEnd returns an error for an image that other bytes follow. What is no image is left to the call that reads it.
func checkEnd(image []byte) error {
	var more C.size_t
	C.hll_image_trailing(start(image), C.size_t(len(image)), &more)
	if more == 0 || C.hll_image_check(start(image), C.size_t(len(image))) != C.HLL_OK {
		return nil
	}
	return &ImageError{C.HLL_TRAILING, len(image), int(more)}
}

// IsSmall returns whether an untrusted image is quick to read, or to reject: it has at most 8,192 bytes, and an lg_k of at
// most 12 or a fault in its header.
func IsSmall(image []byte) bool {
	return C.hll_is_small(start(image), C.size_t(len(image)), 12, 8192) != 0
}

// Close frees the memory of the sketch. After that its calls return ErrClosed. It may be called again, or not at all.
func (s *Sketch) Close() {
	if s.counter != nil {
		C.hll_counter_free(&s.counter.c)
		s.counter.isClosed = true
	}
	s.values, s.ends = nil, nil
}

// usable returns an error if the sketch is closed or the zero Sketch.
func (s *Sketch) usable() error {
	switch {
	case s.counter == nil:
		return ErrZero
	case s.counter.isClosed:
		return ErrClosed
	}
	return nil
}

// Add adds a value by its bytes.
func (s *Sketch) Add(value []byte) error { return add(s, value) }

// AddString adds a string by its bytes, which should be UTF-8.
func (s *Sketch) AddString(value string) error { return add(s, value) }

// AddInt adds an integer by its eight bytes.
func (s *Sketch) AddInt(value int64) error { return s.AddUint(uint64(value)) }

// AddUint adds an integer by its eight bytes.
func (s *Sketch) AddUint(value uint64) error {
	var bytes [8]byte
	binary.LittleEndian.PutUint64(bytes[:], value)
	return s.Add(bytes[:])
}

// AddFloat adds a float by its eight bytes. -0.0 counts as 0.0, and every NaN as one value.
func (s *Sketch) AddFloat(value float64) error {
	switch {
	case value == 0:
		return s.AddUint(0)
	case math.IsNaN(value):
		return s.AddUint(0x7ff8000000000000)
	}
	return s.AddUint(math.Float64bits(value))
}

// AddStrings adds strings by their bytes, all or none.
func (s *Sketch) AddStrings(values ...string) error {
	if err := s.settle(); err != nil || len(values) == 0 {
		return err
	}
	var all []byte
	ends := make([]C.size_t, len(values))
	for i, value := range values {
		all = append(all, value...)
		ends[i] = C.size_t(len(all))
	}
	return errorOf(C.hll_counter_add_many(&s.counter.c, start(all), C.size_t(len(all)), &ends[0], C.size_t(len(ends))), 0)
}

// Coupon returns the coupon of a value, which is all that a sketch of any lg_k takes from it: a number of 32 bits, whose upper 6 bits
// are 1 to 63.
func Coupon(value []byte) uint32 { return uint32(C.hll_coupon(start(value), C.size_t(len(value)))) }

// AddCoupons adds values by their coupons, all or none. It returns an error for a number that is no coupon, with its index.
func (s *Sketch) AddCoupons(coupons []uint32) error {
	if err := s.settle(); err != nil || len(coupons) == 0 {
		return err
	}
	for i, coupon := range coupons {
		if coupon>>26 == 0 {
			return fmt.Errorf("coupons[%d] is %d, whose value is 0; the value of a coupon is 1 to 63", i, coupon)
		}
	}
	return errorOf(C.hll_counter_add_coupons(&s.counter.c, (*C.uint32_t)(unsafe.Pointer(&coupons[0])), C.size_t(len(coupons))), 0)
}

// add lets a value wait, and adds those that wait before it if no other may wait.
func add[Bytes []byte | string](s *Sketch, value Bytes) error {
	if err := s.usable(); err != nil {
		return err
	}
	if len(s.ends) == batch {
		if err := s.flush(); err != nil {
			return err
		}
	}
	s.values = append(s.values, value...)
	s.ends = append(s.ends, C.size_t(len(s.values)))
	return nil
}

// flush adds the values that wait, and keeps their memory for others.
func (s *Sketch) flush() error {
	if len(s.ends) == 0 {
		return nil
	}
	err := errorOf(C.hll_counter_add_many(&s.counter.c, start(s.values), C.size_t(len(s.values)), &s.ends[0], C.size_t(len(s.ends))), 0)
	if err == nil {
		s.values, s.ends = s.values[:0], s.ends[:0]
	}
	return err
}

// settle adds the values that wait, and frees their memory.
func (s *Sketch) settle() error {
	err := s.usable()
	if err == nil {
		err = s.flush()
	}
	if err == nil {
		s.values, s.ends = nil, nil
	}
	return err
}

// MergeImage merges an image without making a sketch of it. It returns an *ImageError if the bytes are no image, or more than one, and
// ErrOtherLgK if the lg_k differ and the sketch has no bound.
func (s *Sketch) MergeImage(image []byte) error {
	if err := s.settle(); err != nil {
		return err
	}
	if err := checkEnd(image); err != nil {
		return err
	}
	status := C.hll_counter_join(&s.counter.c, start(image), C.size_t(len(image)))
	return s.joined(status, int(headOf(image).lg_k), len(image))
}

// Merge merges another sketch, which keeps its values.
func (s *Sketch) Merge(other *Sketch) error {
	if err := s.settle(); err != nil {
		return err
	}
	if err := other.settle(); err != nil {
		return err
	}
	return s.joined(C.hll_counter_join_counter(&s.counter.c, &other.counter.c), other.LgK(), 0)
}

// UnionImages returns the image of the union of images at a width, without making a sketch of each. Sketches of every lg_k are
// merged: the lg_k of the union is lgMaxK, or the smallest lg_k of an image with registers, if that is smaller. The union of no images
// is the empty sketch of lgMaxK. It copies the images into one slice. The error for an image that is rejected names its index, and
// errors.As finds the *ImageError in it.
func UnionImages(lgMaxK int, width Width, images [][]byte) ([]byte, error) {
	if err := checkWidth(width); err != nil {
		return nil, err
	}
	if err := checkLgK(lgMaxK); err != nil {
		return nil, err
	}
	var all []byte
	ends := make([]C.size_t, len(images)+1) // one more, as &ends[0] has to be there
	for i, image := range images {
		if err := checkEnd(image); err != nil {
			return nil, fmt.Errorf("images[%d]: %w", i, err)
		}
		all = append(all, image...)
		ends[i] = C.size_t(len(all))
	}
	var failed C.size_t
	union, status := written(1024, func(out *C.uint8_t, room C.size_t, size *C.size_t) C.hll_status {
		return C.hll_images_union(C.uint(lgMaxK), C.uint(width), start(all), C.size_t(len(all)), &ends[0], C.size_t(len(images)),
			out, room, size, &failed)
	})
	switch {
	case status == C.HLL_OK:
		return union, nil
	case C.HLL_TRUNCATED <= status && status <= C.HLL_REGISTER:
		return nil, fmt.Errorf("images[%d]: %w", failed, errorOf(status, len(images[failed])))
	}
	return nil, errorOf(status, 0)
}

// checkWidth returns an error for a width that is not 4, 6 or 8.
func checkWidth(width Width) error {
	if width != Width4 && width != Width6 && width != Width8 {
		return fmt.Errorf("the width is %d; it must be 4, 6 or 8", width)
	}
	return nil
}

// checkLgK returns an error for an lg_k outside 4 to 21.
func checkLgK(lgK int) error {
	if lgK < 4 || lgK > 21 {
		return fmt.Errorf("lg_k is %d; it must be 4 to 21", lgK)
	}
	return nil
}

// joined returns the error of a merge. One of different lg_k has both.
func (s *Sketch) joined(status C.hll_status, otherLgK, size int) error {
	if status == C.HLL_OTHER_LG_K {
		return fmt.Errorf("lg_k %d and %d: %w", s.LgK(), otherLgK, ErrOtherLgK)
	}
	return errorOf(status, size)
}

// Image returns the image at a width.
func (s *Sketch) Image(width Width) ([]byte, error) {
	if err := checkWidth(width); err != nil {
		return nil, err
	}
	if err := s.settle(); err != nil {
		return nil, err
	}
	image, status := written(64+int(s.summary().size), func(out *C.uint8_t, room C.size_t, size *C.size_t) C.hll_status {
		return C.hll_counter_image(&s.counter.c, C.uint(width), out, room, size)
	})
	return image, errorOf(status, 0)
}

// WriteTo writes the 8-bit image.
func (s *Sketch) WriteTo(w io.Writer) (int64, error) {
	image, err := s.Image(Width8)
	if err != nil {
		return 0, err
	}
	n, err := w.Write(image)
	return int64(n), err
}

// Fold returns the sketch of the same values at a smaller lgK, 4 to that of the sketch.
func (s *Sketch) Fold(lgK int) (*Sketch, error) {
	image, err := s.Image(Width8)
	if err == nil {
		err = checkLgK(lgK)
	}
	if err == nil && lgK > s.LgK() {
		err = fmt.Errorf("lg_k is %d; it must be at most that of the sketch, %d", lgK, s.LgK())
	}
	if err != nil {
		return nil, err
	}
	folded, status := written(len(image), func(out *C.uint8_t, room C.size_t, size *C.size_t) C.hll_status {
		return C.hll_image_fold(start(image), C.size_t(len(image)), C.uint(lgK), out, room, size)
	})
	if status != C.HLL_OK {
		return nil, errorOf(status, 0)
	}
	return Read(folded)
}

// Agrees returns whether both sketches have the same registers, once they are folded to the smaller lg_k.
func (s *Sketch) Agrees(other *Sketch) (bool, error) {
	left, err := s.Image(Width8)
	if err != nil {
		return false, err
	}
	right, err := other.Image(Width8)
	if err != nil {
		return false, err
	}
	var same C.uint8_t
	status := C.hll_images_agree(start(left), C.size_t(len(left)), start(right), C.size_t(len(right)), &same, nil)
	return same != 0, errorOf(status, 0)
}

// Stage is the form of an image.
type Stage uint8

// The stages: coupons in a list or in a set, or registers.
const (
	StageList      Stage = C.HLL_LIST
	StageSet       Stage = C.HLL_SET
	StageRegisters Stage = C.HLL_REGISTERS
)

// String returns "list", "set" or "registers".
func (s Stage) String() string {
	if s > StageRegisters {
		return fmt.Sprintf("Stage(%d)", uint8(s))
	}
	return [...]string{"list", "set", "registers"}[s]
}

// Info is what an image says about its sketch. Fields that its stage doesn't have are zero.
type Info struct {
	LgK     int
	Width   Width
	Stage   Stage
	IsEmpty bool
	// Coupons is the number of coupons of a list or a set.
	Coupons uint64
	// Zeros is the number of registers that are 0.
	Zeros uint64
	// OutOfOrder is the flag of registers that were merged.
	OutOfOrder bool
	// HasHIP is whether HIPEstimate has a result.
	HasHIP bool
	// HIP, KxQ0 and KxQ1 are the estimator fields of registers.
	HIP, KxQ0, KxQ1 float64
}

// InfoOf returns what an image says. It returns an *ImageError if the bytes are no image, or more than one.
func InfoOf(image []byte) (Info, error) {
	var said C.hll_info
	err := checkEnd(image)
	if err == nil {
		err = errorOf(C.hll_image_info(start(image), C.size_t(len(image)), &said, C.sizeof_hll_info), len(image))
	}
	if err != nil {
		return Info{}, err
	}
	return Info{
		LgK: int(said.lg_k), Width: Width(said.width), Stage: Stage(said.stage), IsEmpty: said.is_empty == 1,
		Coupons: uint64(said.coupons), Zeros: uint64(said.zeros), OutOfOrder: said.out_of_order == 1, HasHIP: said.has_hip == 1,
		HIP: math.Float64frombits(uint64(said.hip)), KxQ0: math.Float64frombits(uint64(said.kxq0)), KxQ1: math.Float64frombits(uint64(said.kxq1)),
	}, nil
}

// Estimation is an estimate with its bounds.
type Estimation struct {
	// Estimate is the estimated number of distinct values.
	Estimate float64
	// RelativeStandardError is the standard deviation of the estimate, divided by the number of values.
	RelativeStandardError float64
	// Lower and Upper are the bounds at 1, 2 and 3 standard deviations. The number of distinct values is between them in at least
	// about 68, 95 and 99.7 of 100 cases (docs/NUMBERS.md, "Estimates").
	Lower, Upper [3]float64
}

// Estimate returns the estimate with its bounds.
func (s *Sketch) Estimate() (Estimation, error) {
	if err := s.settle(); err != nil {
		return Estimation{}, err
	}
	var found C.hll_estimation
	if err := errorOf(C.hll_counter_estimate(&s.counter.c, &found), 0); err != nil {
		return Estimation{}, err
	}
	return estimationOf(&found), nil
}

// HIPEstimate returns the HIP estimate that the writer of an image kept in it, with its bounds, and whether it has one: not if it has
// few values, was merged, or was made by this library. Its standard error is a fifth smaller than that of Estimate. HIPEstimate returns
// an *ImageError if the bytes are no image, or more than one.
func HIPEstimate(image []byte) (found Estimation, hasHIP bool, err error) {
	if err := checkEnd(image); err != nil {
		return Estimation{}, false, err
	}
	var said C.hll_estimation
	status := C.hll_hip_estimate(start(image), C.size_t(len(image)), &said)
	if status == C.HLL_ARGUMENT {
		return Estimation{}, false, nil
	}
	return estimationOf(&said), status == C.HLL_OK, errorOf(status, len(image))
}

// estimationOf returns an estimation of C.
func estimationOf(found *C.hll_estimation) Estimation {
	made := Estimation{Estimate: float64(found.estimate), RelativeStandardError: float64(found.relative_standard_error)}
	for i := range made.Lower {
		made.Lower[i], made.Upper[i] = float64(found.lower[i]), float64(found.upper[i])
	}
	return made
}

// String returns a line with the estimate and its bounds at two standard deviations, or the error of a sketch that holds nothing. Its
// receiver is no pointer, so fmt prints a struct or a map with a Sketch in it, too.
func (s Sketch) String() string {
	found, err := s.Estimate()
	if err != nil {
		return err.Error()
	}
	return fmt.Sprintf("sketch of lg_k %d: about %.0f distinct values, with 95%% certainty %.0f to %.0f",
		s.LgK(), found.Estimate, math.Floor(found.Lower[1]), math.Ceil(found.Upper[1]))
}

// summary returns what the counter says, and zeros if the sketch is closed or the zero Sketch.
func (s *Sketch) summary() C.hll_state_summary {
	var said C.hll_state_summary
	if s.usable() == nil {
		C.hll_counter_info(&s.counter.c, &said, C.sizeof_hll_state_summary)
	}
	return said
}

// LgK returns the lg_k of the sketch, and 0 if it is closed or the zero Sketch.
func (s *Sketch) LgK() int { return int(s.summary().lg_k) }

// IsEmpty returns whether no value was added, and false if the sketch is closed or the zero Sketch.
func (s *Sketch) IsEmpty() bool { return len(s.ends) == 0 && s.summary().is_empty == 1 }

// Clone returns a copy. The copy of a closed sketch is closed, and the copy of the zero Sketch is a zero Sketch. It panics if an
// allocation fails.
func (s *Sketch) Clone() *Sketch {
	if s.usable() != nil {
		return &Sketch{counter: s.counter}
	}
	made, err := newCounter(int(s.counter.c.lg_max_k))
	if err == nil {
		err = errorOf(C.hll_counter_copy(&made.c, &s.counter.c), 0)
	}
	if err != nil {
		panic(err)
	}
	return &Sketch{
		counter: made,
		values:  append([]byte(nil), s.values...),
		ends:    append([]C.size_t(nil), s.ends...),
	}
}

var (
	_ encoding.BinaryMarshaler   = Sketch{}
	_ encoding.BinaryUnmarshaler = (*Sketch)(nil)
	_ encoding.TextMarshaler     = Sketch{}
	_ encoding.TextUnmarshaler   = (*Sketch)(nil)
	_ fmt.Stringer               = Sketch{}
	_ io.WriterTo                = (*Sketch)(nil)
	_ driver.Valuer              = Sketch{}
)

// MarshalBinary returns the 8-bit image, for encoding/gob and the like. Its receiver is no pointer, so a struct or a map with a Sketch
// in it can be written, too.
func (s Sketch) MarshalBinary() ([]byte, error) { return s.Image(Width8) }

// UnmarshalBinary replaces the sketch by the sketch of an image.
func (s *Sketch) UnmarshalBinary(image []byte) error {
	read, err := Read(image)
	if err == nil {
		*s = *read
	}
	return err
}

// MarshalText returns the 8-bit image in base64 with padding, for encoding/json and the like.
func (s Sketch) MarshalText() ([]byte, error) {
	image, err := s.Image(Width8)
	if err != nil {
		return nil, err
	}
	return []byte(base64.StdEncoding.EncodeToString(image)), nil
}

// UnmarshalText replaces the sketch by the sketch of an image in base64.
func (s *Sketch) UnmarshalText(text []byte) error {
	image, err := base64.StdEncoding.DecodeString(string(text))
	if err != nil {
		return err
	}
	return s.UnmarshalBinary(image)
}

// Value returns the 8-bit image, for a column of bytes: database/sql calls it for an argument of a query.
func (s Sketch) Value() (driver.Value, error) {
	image, err := s.MarshalBinary()
	if err != nil {
		return nil, err
	}
	return image, nil
}

// Scan replaces the sketch by the sketch of a column, for database/sql: an image as bytes, or in base64 as a string. It returns an error
// for NULL: to read that, scan into the address of a *Sketch, which is nil then.
func (s *Sketch) Scan(column any) error {
	switch column := column.(type) {
	case []byte:
		return s.UnmarshalBinary(column)
	case string:
		return s.UnmarshalText([]byte(column))
	case nil:
		return errors.New("hll: the column is NULL: scan into the address of a *hll.Sketch, which is nil then")
	}
	return fmt.Errorf("hll: the column is a %T; it must be an image as bytes, or in base64 as a string", column)
}
