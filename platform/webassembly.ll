
; What the module has of x86-64-v2, by WebAssembly's own instruction: at each place the byte of the table that the lowest
; four bits of an index name, or 0 where its highest bit is set.
declare <16 x i8> @llvm.wasm.swizzle(<16 x i8>, <16 x i8>)

define internal <16 x i8> @bytes_at(<16 x i8> %table, <16 x i8> %indices) alwaysinline nounwind {
  %kept = and <16 x i8> %indices, splat (i8 143)
  %bytes = call <16 x i8> @llvm.wasm.swizzle(<16 x i8> %table, <16 x i8> %kept)
  ret <16 x i8> %bytes
}
