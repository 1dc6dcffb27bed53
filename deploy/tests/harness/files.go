package harness

import (
	"bytes"
	"encoding/binary"
)

// SharedKeys returns a file with a table whose keys are the ends of one key (docs/FORMAT.md).
func SharedKeys(count int) []byte {
	top := 6 + (count+4)/4
	end := uint32(top + 1 + 2*count)
	var file bytes.Buffer
	file.WriteString("\x20\x00\xda\x27\x14\x00\x00\x00\x00\x00\x02\x00ResB\x01\x01\x00\x00\x00\x00\x00\x00\x00\x00\x00\x00\x00\x00\x00\x00")
	words := func(all ...uint32) { _ = binary.Write(&file, binary.LittleEndian, all) }
	words(4<<28|uint32(top), 5, uint32(top), end, end, uint32(count))
	file.Write(append(bytes.Repeat([]byte{'k'}, count), make([]byte, 4*(top-6)-count)...))
	words(uint32(count))
	for i := count - 1; i >= 0; i-- {
		words(24 + uint32(i))
	}
	for i := 0; i < count; i++ {
		words(7 << 28)
	}
	return file.Bytes()
}
