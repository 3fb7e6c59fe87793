.class public La/Sooner;
.super Lx/Base;
