# The archives of the target that this build is for.
include("${CMAKE_CURRENT_LIST_DIR}/presscurlew-target.cmake")
include("${_presscurlew_choice}/presscurlew-config.cmake")
unset(_presscurlew_choice)
unset(_presscurlew_why)
