# Of the release's folders that of the Linux which this build is for: _presscurlew_choice, or _presscurlew_why there is none.
# CMake knows a Cortex-M by no name that tells them apart: there presscurlew_DIR names the folder.
set(_presscurlew_why TRUE)
file(GLOB _presscurlew_folders "${CMAKE_CURRENT_LIST_DIR}/../../*-linux-*/cmake/presscurlew")
foreach(_presscurlew_folder IN LISTS _presscurlew_folders)
    include("${_presscurlew_folder}/presscurlew-target.cmake")
    if(NOT _presscurlew_why)
        set(_presscurlew_choice "${_presscurlew_folder}")
        break()
    endif()
endforeach()
if(_presscurlew_why)
    string(CONCAT _presscurlew_why "for several targets, none with CMAKE_SYSTEM_NAME '${CMAKE_SYSTEM_NAME}', "
        "CMAKE_SYSTEM_PROCESSOR '${CMAKE_SYSTEM_PROCESSOR}', CMAKE_LIBRARY_ARCHITECTURE '${CMAKE_LIBRARY_ARCHITECTURE}' and "
        "CMAKE_SIZEOF_VOID_P '${CMAKE_SIZEOF_VOID_P}' (for a Cortex-M set presscurlew_DIR to lib/cortex-m4f/cmake/presscurlew "
        "of the release, or its like)")
endif()
unset(_presscurlew_folders)
