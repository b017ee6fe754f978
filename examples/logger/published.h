/* The published GCM test cases, reduced to what the hash sees; hexadecimal, "" for an empty part. */
struct published {
    int number;
    const char *subkey;
    const char *pad;
    const char *header;
    const char *body;
    const char *hash;
    const char *tag;
};

static const struct published published[] = {
    {1, "66e94bd4ef8a2c3b884cfa59ca342b2e", "58e2fccefa7e3061367f1d57a4e7455a",
     "",
     "",
     "00000000000000000000000000000000", "58e2fccefa7e3061367f1d57a4e7455a"},
    {2, "66e94bd4ef8a2c3b884cfa59ca342b2e", "58e2fccefa7e3061367f1d57a4e7455a",
     "",
     "0388dace60b6a392f328c2b971b2fe78",
     "f38cbb1ad69223dcc3457ae5b6b0f885", "ab6e47d42cec13bdf53a67b21257bddf"},
    {3, "b83b533708bf535d0aa6e52980d53b78", "3247184b3c4f69a44dbcd22887bbb418",
     "",
     "42831ec2217774244b7221b784d0d49ce3aa212f2c02a4e035c17e2329aca12e21d514b25466931c7d8f6a5aac84aa05"
     "1ba30b396a0aac973d58e091473f5985",
     "7f1b32b81b820d02614f8895ac1d4eac", "4d5c2af327cd64a62cf35abd2ba6fab4"},
    {4, "b83b533708bf535d0aa6e52980d53b78", "3247184b3c4f69a44dbcd22887bbb418",
     "feedfacedeadbeeffeedfacedeadbeefabaddad2",
     "42831ec2217774244b7221b784d0d49ce3aa212f2c02a4e035c17e2329aca12e21d514b25466931c7d8f6a5aac84aa05"
     "1ba30b396a0aac973d58e091",
     "698e57f70e6ecc7fd9463b7260a9ae5f", "5bc94fbc3221a5db94fae95ae7121a47"},
    {5, "b83b533708bf535d0aa6e52980d53b78", "e94ab9535c72bea9e089c93d48e62fb0",
     "feedfacedeadbeeffeedfacedeadbeefabaddad2",
     "61353b4c2806934a777ff51fa22a4755699b2a714fcdc6f83766e5f97b6c742373806900e49f24b22b097544d4896b42"
     "4989b5e1ebac0f07c23f4598",
     "df586bb4c249b92cb6922877e444d37b", "3612d2e79e3b0785561be14aaca2fccb"},
    {6, "b83b533708bf535d0aa6e52980d53b78", "7dc63b399f2d98d57ab073b6baa4138e",
     "feedfacedeadbeeffeedfacedeadbeefabaddad2",
     "8ce24998625615b603a033aca13fb894be9112a5c3a211a8ba262a3cca7e2ca701e4a9a4fba43c90ccdcb281d48c7c6f"
     "d62875d2aca417034c34aee5",
     "1c5afe9760d3932f3c9a878aac3dc3de", "619cc5aefffe0bfa462af43c1699d050"},
    {7, "aae06992acbf52a3e8f4a96ec9300bd7", "cd33b28ac773f74ba00ed1f312572435",
     "",
     "",
     "00000000000000000000000000000000", "cd33b28ac773f74ba00ed1f312572435"},
    {8, "aae06992acbf52a3e8f4a96ec9300bd7", "cd33b28ac773f74ba00ed1f312572435",
     "",
     "98e7247c07f0fe411c267e4384b0f600",
     "e2c63f0ac44ad0e02efa05ab6743d4ce", "2ff58d80033927ab8ef4d4587514f0fb"},
    {9, "466923ec9ae682214f2c082badb39249", "c835aa88aebbc94f5a02e179fdcfc3e4",
     "",
     "3980ca0b3c00e841eb06fac4872a2757859e1ceaa6efd984628593b40ca1e19c7d773d00c144c525ac619d18c84a3f47"
     "18e2448b2fe324d9ccda2710acade256",
     "51110d40f6c8fff0eb1ae33445a889f0", "9924a7c8587336bfb118024db8674a14"},
    {10, "466923ec9ae682214f2c082badb39249", "c835aa88aebbc94f5a02e179fdcfc3e4",
     "feedfacedeadbeeffeedfacedeadbeefabaddad2",
     "3980ca0b3c00e841eb06fac4872a2757859e1ceaa6efd984628593b40ca1e19c7d773d00c144c525ac619d18c84a3f47"
     "18e2448b2fe324d9ccda2710",
     "ed2ce3062e4a8ec06db8b4c490e8a268", "2519498e80f1478f37ba55bd6d27618c"},
    {11, "466923ec9ae682214f2c082badb39249", "7bb6d647c902427ce7cf26563a337371",
     "feedfacedeadbeeffeedfacedeadbeefabaddad2",
     "0f10f599ae14a154ed24b36e25324db8c566632ef2bbb34f8347280fc4507057fddc29df9a471f75c66541d4d4dad1c9"
     "e93a19a58e8b473fa0f062f7",
     "1e6a133806607858ee80eaf237064089", "65dcc57fcf623a24094fcca40d3533f8"},
    {12, "466923ec9ae682214f2c082badb39249", "5ea3194f9dd012a3b9bc5103d6e0284d",
     "feedfacedeadbeeffeedfacedeadbeefabaddad2",
     "d27e88681ce3243c4830165a8fdcf9ff1de9a1d8e6b447ef6ef7b79828666e4581e79012af34ddd9e2f037589b292db3"
     "e67c036745fa22e7e9b7373b",
     "82567fb0b4cc371801eadec005968e94", "dcf566ff291c25bbb8568fc3d376a6d9"},
    {13, "dc95c078a2408989ad48a21492842087", "530f8afbc74536b9a963b4f1c4cb738b",
     "",
     "",
     "00000000000000000000000000000000", "530f8afbc74536b9a963b4f1c4cb738b"},
    {14, "dc95c078a2408989ad48a21492842087", "530f8afbc74536b9a963b4f1c4cb738b",
     "",
     "cea7403d4d606b6e074ec5d3baf39d18",
     "83de425c5edc5d498f382c441041ca92", "d0d1c8a799996bf0265b98b5d48ab919"},
    {15, "acbef20579b4b8ebce889bac8732dad7", "fd2caa16a5832e76aa132c1453eeda7e",
     "",
     "522dc1f099567d07f47f37a32a84427d643a8cdcbfe5c0c97598a2bd2555d1aa8cb08e48590dbb3da7b08b1056828838"
     "c5f61e6393ba7a0abcc9f662898015ad",
     "4db870d37cb75fcb46097c36230d1612", "b094dac5d93471bdec1a502270e3cc6c"},
    {16, "acbef20579b4b8ebce889bac8732dad7", "fd2caa16a5832e76aa132c1453eeda7e",
     "feedfacedeadbeeffeedfacedeadbeefabaddad2",
     "522dc1f099567d07f47f37a32a84427d643a8cdcbfe5c0c97598a2bd2555d1aa8cb08e48590dbb3da7b08b1056828838"
     "c5f61e6393ba7a0abcc9f662",
     "8bd0c4d8aacd391e67cca447e8c38f65", "76fc6ece0f4e1768cddf8853bb2d551b"},
    {17, "acbef20579b4b8ebce889bac8732dad7", "4f903f37fe611d454217fbfa5cd7d791",
     "feedfacedeadbeeffeedfacedeadbeefabaddad2",
     "c3762df1ca787d32ae47c13bf19844cbaf1ae14d0b976afac52ff7d79bba9de0feb582d33934a4f0954cc2363bc73f78"
     "62ac430e64abe499f47c9b1f",
     "75a34288b8c68f811c52b2e9a2f97f63", "3a337dbf46a792c45e454913fe2ea8f2"},
    {18, "acbef20579b4b8ebce889bac8732dad7", "71b54d092bb0c3d9ba94538d4096e691",
     "feedfacedeadbeeffeedfacedeadbeefabaddad2",
     "5a8def2f0c9e53f1f75d7853659e2a20eeb2b22aafde6419a058ab4f6f746bf40fc0c3b780f244452da3ebf1c5d82cde"
     "a2418997200ef82e44ae7e3f",
     "d5ffcf6fc5ac4d69722187421a7f170b", "a44a8266ee1c8eb0c8b5d4cf5ae9f19a"},
};
