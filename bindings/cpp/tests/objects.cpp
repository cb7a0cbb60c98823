// objects FILE: whether the calls for several objects throw the index of the one with the error, by the status.
#include <xmas_elf.hpp>

#include <cstdint>
#include <vector>

template <class Call> bool is_of_second(Call call)
{
    try { call(); } catch (const xmas_elf::object_error &error) { return error.status() == XMAS_ELF_SHORT_PART_1 && error.of() == 1u && !error.relocation(); }
    return false;
}

int main(int, char **argv)
{
    const xmas_elf::mapped_file bytes(argv[1]);
    const xmas_elf::file file(bytes);
    std::vector<xmas_elf_load_object_t> objects(2, xmas_elf::load_object(file, 0));
    std::vector<std::uint8_t> image = xmas_elf::load_image(file, xmas_elf::loader::linux_kernel);
    objects[1].file_size = 3;
    return is_of_second([&] { xmas_elf::check_image(objects, 0, image.size()); }) && is_of_second([&] { xmas_elf::relocate(objects, 0, image); }) &&
           is_of_second([&] { xmas_elf::relocate_all(objects, image); }) ? 0 : 1;
}
