<?php // a stand-in
